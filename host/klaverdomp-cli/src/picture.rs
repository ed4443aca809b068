// A picture of attention weights: panels side by side, in each one cell for each query and key, with axes, ticks and a colour scale.

use std::fmt::Write;

/// One square of weights: `positions` rows of `positions`.
pub struct Panel<'a> {
    pub label: &'a str,
    pub weights: &'a [f32],
}

/// What is drawn.
pub struct Heatmap<'a> {
    pub title: &'a str,
    pub subtitle: &'a str,
    pub positions: usize,
    pub panels: &'a [Panel<'a>],
    /// Ticks stand at multiples of this.
    pub tick: usize,
    /// First positions of the chunks, each marked by a dashed line.
    pub chunks: &'a [usize],
    /// Lines below the picture.
    pub notes: &'a [&'a str],
}

const CELL: usize = 10;
const LEFT: usize = 92;
const TOP: usize = 100;
/// Between two panels.
const GAP: usize = 44;

/// Colours from low to high, of even lightness steps and told apart by colour-blind readers too (viridis).
const COLOURS: [[u8; 3]; 9] = [
    [68, 1, 84],
    [71, 44, 122],
    [59, 81, 139],
    [44, 113, 142],
    [33, 144, 141],
    [39, 173, 129],
    [92, 200, 99],
    [170, 220, 50],
    [253, 231, 37],
];

/// Weights from 1 down to this are told apart by colour; smaller ones have the lowest colour.
const LEAST: f32 = 0.001;

/// The colour of a weight on a logarithmic scale from `LEAST` to 1.
fn colour(weight: f32) -> String {
    let height = if weight <= LEAST { 0.0 } else { 1.0 - weight.log10() / LEAST.log10() };
    let place = height.clamp(0.0, 1.0) * (COLOURS.len() - 1) as f32;
    let low = (place as usize).min(COLOURS.len() - 2);
    let part = place - low as f32;
    let [r, g, b] = [0, 1, 2].map(|n| {
        let (from, to) = (f32::from(COLOURS[low][n]), f32::from(COLOURS[low + 1][n]));
        (from + part * (to - from)).round() as u8
    });
    format!("#{r:02x}{g:02x}{b:02x}")
}

/// The picture as SVG. Writing to a string cannot fail.
pub fn svg(map: &Heatmap) -> String {
    let side = map.positions * CELL;
    let right = LEFT + map.panels.len() * (side + GAP) - GAP;
    let (width, height) = (right + 150, TOP + side + 76 + 19 * map.notes.len());
    let mut s = String::new();
    let _ = writeln!(
        s,
        "<svg xmlns=\"http://www.w3.org/2000/svg\" viewBox=\"0 0 {width} {height}\" width=\"{width}\" height=\"{height}\" \
         font-family=\"Helvetica, Arial, sans-serif\" font-size=\"13\" fill=\"#222\">"
    );
    let _ = writeln!(s, "<title>{}</title>", escape(map.title));
    let _ = writeln!(s, "<rect width=\"{width}\" height=\"{height}\" fill=\"#fff\"/>");
    let _ = writeln!(s, "<text x=\"{LEFT}\" y=\"32\" font-size=\"18\" font-weight=\"bold\">{}</text>", escape(map.title));
    let _ = writeln!(s, "<text x=\"{LEFT}\" y=\"54\">{}</text>", escape(map.subtitle));
    for (n, panel) in map.panels.iter().enumerate() {
        let left = LEFT + n * (side + GAP);
        let (middle, above) = (left + side / 2, TOP - 12);
        let _ = writeln!(s, "<text x=\"{middle}\" y=\"{above}\" text-anchor=\"middle\">{}</text>", escape(panel.label));
        cells(&mut s, map.positions, panel.weights, left);
        axes(&mut s, map, left);
    }
    query_axis(&mut s, map);
    for (n, note) in map.notes.iter().enumerate() {
        let _ = writeln!(s, "<text x=\"{LEFT}\" y=\"{}\" fill=\"#555\">{}</text>", TOP + side + 76 + 19 * n, escape(note));
    }
    colour_scale(&mut s, side, right + 34);
    s.push_str("</svg>\n");
    s
}

/// One square for each weight of a key that is not after the query; the others are hidden by the causal flag.
fn cells(s: &mut String, positions: usize, weights: &[f32], left: usize) {
    let side = positions * CELL;
    let _ = writeln!(s, "<rect x=\"{left}\" y=\"{TOP}\" width=\"{side}\" height=\"{side}\" fill=\"#ececec\"/>");
    let _ = writeln!(s, "<g shape-rendering=\"crispEdges\">");
    for (i, row) in weights.chunks(positions).enumerate() {
        for (j, weight) in row.iter().enumerate().take(i + 1) {
            let (x, y) = (left + j * CELL, TOP + i * CELL);
            let _ = writeln!(s, "<rect x=\"{x}\" y=\"{y}\" width=\"{CELL}\" height=\"{CELL}\" fill=\"{}\"/>", colour(*weight));
        }
    }
    let _ = writeln!(s, "</g>");
    let (x, y) = (left + side * 2 / 3, TOP + side / 4);
    let _ = writeln!(
        s,
        "<text x=\"{x}\" y=\"{y}\" text-anchor=\"middle\" fill=\"#777\">keys after the query: hidden (causal)</text>"
    );
}

/// Frame, ticks, chunks and key axis of a panel.
fn axes(s: &mut String, map: &Heatmap, left: usize) {
    let side = map.positions * CELL;
    let (right, bottom) = (left + side, TOP + side);
    let _ = writeln!(s, "<rect x=\"{left}\" y=\"{TOP}\" width=\"{side}\" height=\"{side}\" fill=\"none\" stroke=\"#222\"/>");
    let _ = writeln!(s, "<g stroke=\"#222\">");
    let ticks = (0..map.positions).step_by(map.tick.max(1));
    for n in ticks.clone() {
        let (x, y) = (left + n * CELL + CELL / 2, TOP + n * CELL + CELL / 2);
        let _ = writeln!(s, "<path d=\"M{x} {bottom}v6 M{left} {y}h-6\"/>");
    }
    for start in map.chunks.iter().filter(|start| **start > 0) {
        let y = TOP + start * CELL;
        let _ = writeln!(s, "<path d=\"M{left} {y}H{right}\" stroke=\"#fff\" stroke-width=\"0.8\" stroke-dasharray=\"3 3\"/>");
        let _ = writeln!(
            s,
            "<path d=\"M{} {y}H{right}\" stroke=\"#999\" stroke-width=\"0.8\" stroke-dasharray=\"3 3\"/>",
            left + start * CELL
        );
    }
    let _ = writeln!(s, "</g>");
    for n in ticks {
        let x = left + n * CELL + CELL / 2;
        let _ = writeln!(s, "<text x=\"{x}\" y=\"{}\" text-anchor=\"middle\">{n}</text>", bottom + 21);
    }
    let (middle, below) = (left + side / 2, bottom + 46);
    let _ = writeln!(s, "<text x=\"{middle}\" y=\"{below}\" text-anchor=\"middle\" font-size=\"15\">key position j</text>");
}

/// The words beside the first panel.
fn query_axis(s: &mut String, map: &Heatmap) {
    for n in (0..map.positions).step_by(map.tick.max(1)) {
        let y = TOP + n * CELL + CELL / 2;
        let _ = writeln!(s, "<text x=\"{}\" y=\"{}\" text-anchor=\"end\">{n}</text>", LEFT - 10, y + 5);
    }
    let (x, y) = (LEFT - 52, TOP + map.positions * CELL / 2);
    let _ = writeln!(
        s,
        "<text x=\"{x}\" y=\"{y}\" text-anchor=\"middle\" font-size=\"15\" transform=\"rotate(-90 {x} {y})\">query position i</text>"
    );
}

/// A bar of all colours with its weights beside it.
fn colour_scale(s: &mut String, side: usize, x: usize) {
    let steps = 120;
    let (bar, top) = (side * 7 / 10, TOP + side * 3 / 20);
    let height_of = |weight: f32| 1.0 - weight.log10() / LEAST.log10();
    let _ = writeln!(s, "<g shape-rendering=\"crispEdges\">");
    for n in 0..steps {
        let weight = LEAST.powf(n as f32 / (steps - 1) as f32);
        let y = top as f32 + bar as f32 * n as f32 / steps as f32;
        let _ = writeln!(
            s,
            "<rect x=\"{x}\" y=\"{y:.2}\" width=\"20\" height=\"{:.2}\" fill=\"{}\"/>",
            bar as f32 / steps as f32 + 0.6,
            colour(weight)
        );
    }
    let _ = writeln!(s, "</g>");
    let _ = writeln!(s, "<rect x=\"{x}\" y=\"{top}\" width=\"20\" height=\"{bar}\" fill=\"none\" stroke=\"#222\"/>");
    for (weight, label) in
        [(1.0, "1"), (0.3, "0.3"), (0.1, "0.1"), (0.03, "0.03"), (0.01, "0.01"), (0.003, "0.003"), (LEAST, "≤ 0.001")]
    {
        let y = top as f32 + bar as f32 * (1.0 - height_of(weight));
        let _ = writeln!(s, "<path d=\"M{} {y:.1}h6\" stroke=\"#222\"/>", x + 20);
        let _ = writeln!(s, "<text x=\"{}\" y=\"{:.1}\">{label}</text>", x + 31, y + 4.5);
    }
    let _ = writeln!(s, "<text x=\"{x}\" y=\"{}\" font-size=\"15\">weight</text>", top - 28);
    let _ = writeln!(s, "<text x=\"{x}\" y=\"{}\" fill=\"#555\">(log scale)</text>", top - 11);
}

fn escape(text: &str) -> String {
    text.replace('&', "&amp;").replace('<', "&lt;").replace('>', "&gt;")
}

#[cfg(test)]
mod tests {
    use super::*;

    #[test]
    fn colours_span_the_scale() {
        assert_eq!(colour(1.0), "#fde725");
        assert_eq!(colour(0.0), "#440154");
        assert_eq!(colour(LEAST), "#440154");
        assert_eq!(colour(f32::NAN).len(), 7);
    }

    #[test]
    fn a_cell_for_each_key_up_to_the_query() {
        let panel = |label| Panel { label, weights: &[1.0 / 3.0; 9] };
        let panels = [panel("one"), panel("two")];
        for panels in [&panels[..1], &panels] {
            let map = Heatmap { title: "a < b", subtitle: "", positions: 3, panels, tick: 1, chunks: &[0], notes: &[] };
            let text = svg(&map);
            let cell = format!("width=\"{CELL}\" height=\"{CELL}\"");
            assert_eq!(text.matches(&cell).count(), 6 * panels.len());
            assert_eq!(text.matches("key position j").count(), panels.len());
            assert!(text.contains("a &lt; b") && text.contains("one") && text.ends_with("</svg>\n"));
        }
    }
}
