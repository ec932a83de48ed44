//! A plot of two panels as SVG. Both have one scale: how many blocks, by powers of two, and nanoseconds a
//! sample from 0. No text that is put in has a character that SVG would take for its own.

pub struct Panel {
    pub title: &'static str,
    /// What the number is of.
    pub unit: &'static str,
    pub lines: Vec<Line>,
}

pub struct Line {
    pub name: String,
    pub colour: &'static str,
    pub dashed: bool,
    pub points: Vec<(usize, f64)>,
}

const WIDTH: f64 = 800.0;
const HEIGHT: f64 = 420.0;
/// Where the panels begin, and their size.
const LEFTS: [f64; 2] = [60.0, 445.0];
const TOP: f64 = 78.0;
const WIDE: f64 = 335.0;
const HIGH: f64 = 232.0;
/// Between a line that ends at the frame and the frame.
const INSET: f64 = 12.0;

const MIDDLE: &str = "text-anchor=\"middle\"";

pub fn svg(title: &str, panels: &[Panel; 2]) -> String {
    let mut svg = format!(
        "<svg xmlns=\"http://www.w3.org/2000/svg\" width=\"{WIDTH}\" height=\"{HEIGHT}\" \
         viewBox=\"0 0 {WIDTH} {HEIGHT}\" font-family=\"sans-serif\" font-size=\"12\" fill=\"#222222\">\n\
         <rect width=\"{WIDTH}\" height=\"{HEIGHT}\" fill=\"#ffffff\"/>\n"
    );
    let large = format!("{MIDDLE} font-size=\"16\"");
    put(&mut svg, (WIDTH / 2.0, 28.0), &large, title);
    let scale = Scale::of(panels);
    for (left, panel) in LEFTS.into_iter().zip(panels) {
        frame(&mut svg, left, panel, &scale);
        for line in &panel.lines {
            let points = line.points.iter().map(|&point| scale.at(left, point));
            let points: Vec<String> = points.map(|(x, y)| format!("{x:.1},{y:.1}")).collect();
            stroke(&mut svg, &points.join(" "), line);
        }
    }
    legend(&mut svg, &panels[0].lines);
    svg + "</svg>\n"
}

/// What the axes reach to: a power of two, and a number of even steps.
struct Scale {
    powers: u32,
    step: f64,
    steps: u32,
}

impl Scale {
    fn of(panels: &[Panel; 2]) -> Scale {
        let lines = panels.iter().flat_map(|panel| &panel.lines);
        let points = || lines.clone().flat_map(|line| &line.points);
        let blocks = points().map(|&(blocks, _)| blocks).max();
        let time = points().map(|&(_, time)| time).fold(0.0, f64::max);
        // the smallest of 1, 2, 5, 10, 20 .. with which few steps do
        let ten = 10_f64.powf((time / 8.0).log10().floor());
        let step = [1.0, 2.0, 5.0].map(|part| part * ten);
        let step = step.into_iter().find(|step| time / step <= 8.0);
        let step = step.unwrap_or(10.0 * ten);
        Scale {
            powers: blocks.map_or(1, |blocks| blocks.ilog2()),
            step,
            steps: (time / step).ceil() as u32,
        }
    }

    fn at(&self, left: f64, (blocks, time): (usize, f64)) -> (f64, f64) {
        let across = (blocks as f64).log2() / f64::from(self.powers);
        let up = time / (self.step * f64::from(self.steps));
        let wide = WIDE - 2.0 * INSET;
        (left + INSET + wide * across, TOP + HIGH * (1.0 - up))
    }
}

/// The axes, with a faint rule across at each step.
fn frame(svg: &mut String, left: f64, panel: &Panel, scale: &Scale) {
    let (middle, bottom) = (left + WIDE / 2.0, TOP + HIGH);
    let large = format!("{MIDDLE} font-size=\"14\"");
    put(svg, (middle, TOP - 14.0), &large, panel.title);
    let digits = (-scale.step.log10().floor()).max(0.0) as usize;
    for time in (0..=scale.steps).map(|step| f64::from(step) * scale.step) {
        let (_, y) = scale.at(left, (1, time));
        rule(svg, (left, y), (left + WIDE, y), "#dddddd");
        let number = format!("{time:.digits$}");
        put(svg, (left - 6.0, y + 4.0), "text-anchor=\"end\"", &number);
    }
    for power in 0..=scale.powers {
        let (x, _) = scale.at(left, (1 << power, 0.0));
        rule(svg, (x, bottom), (x, bottom + 4.0), "#222222");
        // there is room for every other number
        if power % 2 == 0 {
            let number = (1 << power).to_string();
            put(svg, (x, bottom + 18.0), MIDDLE, &number);
        }
    }
    rule(svg, (left, TOP), (left, bottom), "#222222");
    rule(svg, (left, bottom), (left + WIDE, bottom), "#222222");
    put(svg, (middle, bottom + 38.0), MIDDLE, panel.unit);
    let (x, y) = (left - 34.0, TOP + HIGH / 2.0);
    let turned = format!("{MIDDLE} transform=\"rotate(-90 {x} {y})\"");
    put(svg, (x, y), &turned, "ns a sample");
}

/// Beneath the panels, for the lines of both.
fn legend(svg: &mut String, lines: &[Line]) {
    let wide = 175.0;
    let left = (WIDTH - wide * lines.len() as f64) / 2.0;
    let y = HEIGHT - 26.0;
    for (place, line) in lines.iter().enumerate() {
        let x = left + wide * place as f64;
        stroke(svg, &format!("{x},{y} {},{y}", x + 34.0), line);
        put(svg, (x + 42.0, y + 4.0), "", &line.name);
    }
}

fn stroke(svg: &mut String, points: &str, line: &Line) {
    let dashes = if line.dashed { "6 4" } else { "none" };
    let style = format!("stroke-width=\"2\" stroke-dasharray=\"{dashes}\"");
    let colour = format!("fill=\"none\" stroke=\"{}\"", line.colour);
    *svg += &format!("<polyline points=\"{points}\" {colour} {style}/>\n");
}

fn rule(svg: &mut String, (x, y): (f64, f64), (to_x, to_y): (f64, f64), colour: &str) {
    let from_to = format!("x1=\"{x:.1}\" y1=\"{y:.1}\" x2=\"{to_x:.1}\" y2=\"{to_y:.1}\"");
    *svg += &format!("<line {from_to} stroke=\"{colour}\"/>\n");
}

fn put(svg: &mut String, (x, y): (f64, f64), style: &str, text: &str) {
    *svg += &format!("<text x=\"{x:.1}\" y=\"{y:.1}\" {style}>{text}</text>\n");
}
