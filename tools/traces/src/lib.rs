//! What the traces and tools/judge share: the leaf of crates/outline, and numbers to try. Nothing here wants the source, filter.rs.

mod numbers;

/// Our types and functions.
pub use motif_filters as proved;
pub use numbers::Numbers;

/// The leaf of crates/outline, every x and every y: the two lists in its text.
pub fn leaf() -> [Vec<f32>; 2] {
    let text = include_str!("../../../crates/outline/src/main.rt");
    ["LEAF_X", "LEAF_Y"].map(|name| {
        let list = text.split(&format!("const {name}: [f32; 16] = [")).nth(1);
        let list = list.and_then(|rest| rest.split(']').next()).expect(name);
        let words = list.split(',').map(str::trim).filter(|w| !w.is_empty());
        let line: Vec<f32> = words.map(|w| w.parse().expect(name)).collect();
        assert_eq!(line.len(), 16);
        line
    })
}
