//! Prints the figures, and writes them to docs/BENCH.md, between its two marks, and to docs/bench.svg.
use std::fmt::Write;

pub struct Row {
    pub title: String,
    pub width: usize,
    pub engine: &'static str,
    pub ns: f64,
    pub ratio: f64,
}

const BEGIN: &str = "<!-- figures -->\n";
const END: &str = "<!-- end of figures -->";

pub fn write(rows: &[Row]) {
    let mut table = String::from("| | width | engine | ns | of the Rust crate |\n|---|---|---|---|---|\n");
    for r in rows {
        println!("{:24} {}  {:14} {:9.1} ns  {:.2} of the Rust crate", r.title, r.width, r.engine, r.ns, r.ratio);
        writeln!(table, "| {} | {} | {} | {:.1} | {:.2} |", r.title, r.width, r.engine, r.ns, r.ratio).unwrap();
    }
    let page = std::fs::read_to_string("docs/BENCH.md").expect("docs/BENCH.md");
    let (head, rest) = page.split_once(BEGIN).expect("docs/BENCH.md has lost its mark of the figures");
    let (_, tail) = rest.split_once(END).expect("docs/BENCH.md has lost its mark of the figures' end");
    std::fs::write("docs/BENCH.md", format!("{head}{BEGIN}\n{table}\n{END}{tail}")).expect("docs/BENCH.md");
    std::fs::write("docs/bench.svg", picture(rows)).expect("docs/bench.svg");
}

/// A bar for each figure, its length the share of the Rust crate's time; the line marks the Rust crate.
fn picture(rows: &[Row]) -> String {
    let shown: Vec<&Row> = rows.iter().filter(|r| r.engine != "Rust crate").collect();
    let (left, unit, step) = (330.0, 220.0, 22.0);
    let height = 70.0 + step * shown.len() as f64;
    let mut svg = format!("<svg xmlns=\"http://www.w3.org/2000/svg\" width=\"950\" height=\"{height}\" font-family=\"sans-serif\" font-size=\"13\">\n<rect width=\"950\" height=\"{height}\" fill=\"white\"/>\n");
    svg += "<text x=\"10\" y=\"22\" font-size=\"16\">Time of a call as a share of the Rust crate's (shorter is faster)</text>\n";
    for (i, r) in shown.iter().enumerate() {
        let y = 40.0 + step * i as f64;
        let share = r.ratio.min(2.3);
        let colour = if r.engine == "this library" { "#2a6fb0" } else { "#b9b9b9" };
        let more = if share < r.ratio { " (cut)" } else { "" };
        writeln!(svg, "<text x=\"{}\" y=\"{}\" text-anchor=\"end\">{}, {}: {}</text>", left - 8.0, y + 14.0, r.width, r.title, r.engine).unwrap();
        writeln!(svg, "<rect x=\"{left}\" y=\"{y}\" width=\"{:.1}\" height=\"16\" fill=\"{colour}\"/>", unit * share).unwrap();
        writeln!(svg, "<text x=\"{:.1}\" y=\"{}\">{:.2}{more}</text>", left + unit * share + 6.0, y + 14.0, r.ratio).unwrap();
    }
    let x = left + unit;
    write!(svg, "<line x1=\"{x}\" y1=\"34\" x2=\"{x}\" y2=\"{}\" stroke=\"#c03030\"/>\n<text x=\"{x}\" y=\"{}\" text-anchor=\"middle\" fill=\"#c03030\">the Rust crate</text>\n</svg>\n", height - 28.0, height - 10.0).unwrap();
    svg
}
