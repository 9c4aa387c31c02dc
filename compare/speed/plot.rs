//! The figures as a table, and as a plot of the ratios.
use crate::race::Figure;
use std::fmt::Write;

fn groups(figures: &[Figure]) -> Vec<&'static str> {
    let mut out = vec![];
    for figure in figures {
        if !out.contains(&figure.group) {
            out.push(figure.group);
        }
    }
    out
}

fn ns(time: f64) -> String {
    if time >= 10_000.0 {
        format!("{:.1} µs", time / 1000.0)
    } else {
        format!("{time:.0} ns")
    }
}

pub fn table(figures: &[Figure]) -> String {
    let mut out = String::new();
    for group in groups(figures) {
        let members: Vec<&Figure> = figures.iter().filter(|figure| figure.group == group).collect();
        let _ = writeln!(out, "\n### {group}\n\nAgainst {}.\n", members[0].against);
        out.push_str("| input | ratio warm | ratio cold | ours warm | Rust warm | ours cold | Rust cold | asked for |\n|---|---|---|---|---|---|---|---|\n");
        for f in members {
            let goal = match f.goal {
                None => "".into(),
                Some(goal) if f.warm.ratio >= goal => format!("{goal}: reached"),
                Some(goal) => format!("{goal}: NOT reached"),
            };
            let _ = writeln!(
                out,
                "| {} | **{:.2}** | {:.2} | {} | {} | {} | {} | {goal} |",
                f.name,
                f.warm.ratio,
                f.cold.ratio,
                ns(f.warm.ours),
                ns(f.warm.rust),
                ns(f.cold.ours),
                ns(f.cold.rust)
            );
        }
    }
    out
}

const LEFT: f64 = 330.0;
const WIDTH: f64 = 520.0;
const LOWEST: f64 = 1.0 / 16.0;
const HIGHEST: f64 = 16.0;

fn x(ratio: f64) -> f64 {
    let r = ratio.clamp(LOWEST, HIGHEST);
    LEFT + WIDTH * (r / LOWEST).ln() / (HIGHEST / LOWEST).ln()
}

/// Bars from 1 on a logarithmic scale: to the right faster than the Rust, to the left slower. Warm dark, cold light; a tick where a ratio was
/// asked for.
pub fn svg(figures: &[Figure]) -> String {
    let mut body = String::new();
    let mut y = 60.0;
    for group in groups(figures) {
        let _ = writeln!(body, r#"<text x="10" y="{y}" class="g">{group}</text>"#);
        y += 8.0;
        for f in figures.iter().filter(|figure| figure.group == group) {
            let _ = writeln!(body, r#"<text x="{}" y="{}" class="n" text-anchor="end">{}</text>"#, LEFT - 10.0, y + 11.0, f.name);
            for (k, (ratio, class)) in vec![(f.warm.ratio, "w"), (f.cold.ratio, "c")].into_iter().enumerate() {
                let (from, to) = (x(1.0).min(x(ratio)), x(1.0).max(x(ratio)));
                let top = y + 7.0 * k as f64;
                let _ =
                    writeln!(body, r#"<rect x="{from:.1}" y="{top:.1}" width="{:.1}" height="6" class="{class}"/>"#, (to - from).max(1.0));
            }
            if let Some(goal) = f.goal {
                let _ = writeln!(body, r#"<line x1="{0:.1}" x2="{0:.1}" y1="{1:.1}" y2="{2:.1}" class="a"/>"#, x(goal), y - 1.0, y + 14.0);
            }
            let _ = writeln!(
                body,
                r#"<text x="{}" y="{}" class="n">{:.2} / {:.2}</text>"#,
                LEFT + WIDTH + 12.0,
                y + 11.0,
                f.warm.ratio,
                f.cold.ratio
            );
            y += 19.0;
        }
        y += 18.0;
    }
    let mut grid = String::new();
    let mut ratio = LOWEST;
    while ratio <= HIGHEST {
        let label = if ratio < 1.0 { format!("1/{}", 1.0 / ratio) } else { format!("{ratio}") };
        let class = if ratio == 1.0 { "one" } else { "grid" };
        let _ = writeln!(
            grid,
            r#"<line x1="{0:.1}" x2="{0:.1}" y1="40" y2="{1:.1}" class="{class}"/><text x="{0:.1}" y="34" class="n" text-anchor="middle">{label}</text>"#,
            x(ratio),
            y - 10.0
        );
        ratio *= 2.0;
    }
    format!(
        r#"<svg xmlns="http://www.w3.org/2000/svg" width="980" height="{y}" viewBox="0 0 980 {y}">
<style>text{{font-family:sans-serif;fill:#222}}.g{{font-size:13px;font-weight:bold}}.n{{font-size:11px}}.w{{fill:#27577f}}.c{{fill:#9cc3e0}}.grid{{stroke:#ddd}}.one{{stroke:#222}}.a{{stroke:#c0392b;stroke-width:2}}</style>
<rect width="980" height="{y}" fill="white"/>
<text x="10" y="18" class="n">Speed as a ratio to the Rust, logarithmic; above 1 is faster. Dark: warm, light: cold. Red tick: what was asked for.</text>
{grid}{body}</svg>
"#
    )
}

const START: &str = "<!-- figures: written by compare/bench -->";
const END: &str = "<!-- end of the figures -->";

const TEXT: &str = "# Speed

Ratios to the real crate, raft-engine 0.4.2, on the same inputs in one run of `compare/bench`; above 1 is faster. Both are built for release. Each figure is the median over rounds in which both run in turn: warm, the same call again and again; cold, one call after 32 MiB of other memory were read. Output buffers are not cleared in between. The times of numbers are for 1,024 of them, one call each. The library is called through its C functions, one call for each number, checksum or body; the Rust is called in the same way, and its batch is dropped in the time that is taken.

![Ratios](speed.svg)

";

/// Puts the figures into docs/SPEED.md between their marks, and the plot beside it. Text outside the marks stays.
pub fn put(docs: &str, figures: &[Figure], machine: &str) {
    let path = format!("{docs}/SPEED.md");
    let old = std::fs::read_to_string(&path).unwrap_or(format!("{TEXT}{START}\n{END}\n"));
    let (before, rest) = old.split_once(START).unwrap_or((&old, END));
    let after = rest.split_once(END).map_or("\n", |(_, after)| after);
    let new = format!("{before}{START}\n\nMeasured on {machine}.\n{}\n{END}{after}", table(figures));
    std::fs::write(path, new).expect("docs can be written");
    std::fs::write(format!("{docs}/speed.svg"), svg(figures)).expect("docs can be written");
}
