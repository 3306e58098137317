//! What the printing program prints, for a schema of any number of pieces.

use lubiksan::limits::ROW;
use lubiksan::Graph;

/// The lines of a graph whose schema was read in `events` events.
pub fn print(events: usize, graph: &Graph<'_>) -> Vec<u8> {
    let rows = graph.rows().chunks_exact(ROW);
    let mut out = format!("read 0 {events}\nlower 0 {}\n", rows.len()).into_bytes();
    for row in rows {
        let numbers: Vec<String> = row.iter().map(u32::to_string).collect();
        out.extend(numbers.join(" ").bytes());
        out.push(b'\n');
    }
    out.extend(graph.names());
    out.push(b'\n');
    out
}
