//! The rota of document 02 b, from the tellings and turns that were accepted.

const HEADS: u64 = 12;
const MOST_GRANTED: u64 = 256;

/// A head's last accepted telling, and what it was granted since.
#[derive(Default)]
struct Told {
    samples: u64,
    granted: Vec<u64>,
}

impl Told {
    fn left(&self) -> u64 {
        self.samples - self.granted.iter().sum::<u64>()
    }
}

/// What the heads were told, and which one was served last, none before any.
#[derive(Default)]
pub struct Rota {
    told: [Told; HEADS as usize],
    served: Option<u64>,
}

impl Rota {
    pub fn tell(&mut self, head: u64, samples: u64) -> u8 {
        if head >= HEADS {
            return 1;
        }
        let told = &mut self.told[head as usize];
        if told.left() > 0 {
            return 13;
        }
        if samples == 0 {
            return 14;
        }
        *told = Told {
            samples,
            granted: Vec::new(),
        };
        0
    }

    /// The head that is the fewest steps ahead in the ring, of those that wait, and what it is granted.
    pub fn turn(&mut self) -> Option<(u64, u64)> {
        let last = self.served.unwrap_or(HEADS - 1);
        let ahead = |head: &u64| (head + HEADS - last - 1) % HEADS;
        let head = self.waiting().min_by_key(ahead)?;
        let told = &mut self.told[head as usize];
        let granted = told.left().min(MOST_GRANTED);
        told.granted.push(granted);
        self.served = Some(head);
        Some((head, granted))
    }

    pub fn waiting(&self) -> impl Iterator<Item = u64> + '_ {
        (0..HEADS).filter(|head| self.told[*head as usize].left() > 0)
    }

    pub fn waits(&self, head: u64) -> bool {
        self.waiting().any(|waiting| waiting == head)
    }

    pub fn served(&self) -> Option<u64> {
        self.served
    }
}
