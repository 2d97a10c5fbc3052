//! The picture of physical memory: addresses from top to bottom, for each guest a column of grants, frames and tables, and findings across
//! all columns.
use crate::guest::Guest;
use crate::layout::FRAME;
use crate::map::Finding;
use crate::ranges::{joined, Range};
use std::fmt::Write;

const LEFT: f64 = 150.0;
const COLUMN: f64 = 230.0;
const TOP: f64 = 96.0;
const GAP: f64 = 14.0;
/// The least height of a part that has something in it, and how much each doubling adds.
const LEAST: f64 = 18.0;
const DOUBLING: f64 = 3.0;
/// With more parts than this they are drawn thin, so that the picture stays one.
const MANY: usize = 300;
const THIN: f64 = 3.0;
const LABEL: f64 = 11.0;
const LINE: f64 = 15.0;
const TITLE: &str = "Physical memory, as stage 2 gives it to guests";
const TITLE_WIDTH: f64 = 470.0;
/// The width of a letter, about.
const LETTER: f64 = 7.5;

const FRAMES: [&str; 4] = ["#2b7bba", "#2f9e6e", "#8a63b8", "#b8860b"];
const TABLES: &str = "#555555";
const GRANTS: &str = "#d9d9d9";
const WRONG: &str = "#d62728";

/// Addresses on their way down the picture: parts between neighbouring bounds, each with its height.
struct Scale {
    parts: Vec<(Range, f64, f64)>,
}

fn all_ranges(guests: &[Guest]) -> Vec<Range> {
    guests.iter().flat_map(|guest| guest.frames.iter().chain(&guest.tables).chain(guest.grants.iter().flatten())).copied().collect()
}

impl Scale {
    /// Memory that nobody has is drawn short, whatever its size.
    fn of(ranges: &[Range]) -> Scale {
        let mut bounds: Vec<u64> = ranges.iter().flat_map(|range| [range.start, range.end]).collect();
        bounds.sort_unstable();
        bounds.dedup();
        let many = bounds.len() > MANY;
        let held = joined(ranges.to_vec());
        let mut parts = Vec::new();
        let mut y = TOP;
        for pair in bounds.windows(2) {
            let part = Range { start: pair[0], end: pair[1] };
            let next = held.get(held.partition_point(|range| range.end <= part.start));
            let used = next.map_or(false, |range| range.start <= part.start);
            let doublings = ((part.size() as f64) / FRAME as f64).log2().max(0.0);
            let height = match (used, many) {
                (false, false) => GAP,
                (true, false) => LEAST + DOUBLING * doublings,
                (_, true) => THIN,
            };
            parts.push((part, y, y + height));
            y += height;
        }
        Scale { parts }
    }

    fn bottom(&self) -> f64 {
        self.parts.last().map_or(TOP, |part| part.2)
    }

    /// From where to where a range is drawn. Its ends are bounds of parts.
    fn extent(&self, range: Range) -> (f64, f64) {
        let first = self.parts.partition_point(|(part, ..)| part.start < range.start);
        let past = self.parts.partition_point(|(part, ..)| part.end <= range.end);
        (self.parts[first].1, self.parts[past - 1].2)
    }
}

fn escaped(text: &str) -> String {
    text.replace('&', "&amp;").replace('<', "&lt;").replace('>', "&gt;").replace('"', "&quot;")
}

struct Picture {
    svg: String,
    scale: Scale,
    /// How far down anything is drawn.
    bottom: f64,
}

impl Picture {
    fn rectangle(&mut self, x: f64, width: f64, range: Range, style: &str, title: &str) {
        let (top, bottom) = self.scale.extent(range);
        let _ = writeln!(
            self.svg,
            r#"<rect x="{x}" y="{top:.1}" width="{width}" height="{:.1}" {style}><title>{}</title></rect>"#,
            bottom - top,
            escaped(title)
        );
    }

    fn text(&mut self, x: f64, y: f64, style: &str, text: &str) {
        let _ = writeln!(self.svg, r#"<text x="{x}" y="{y:.1}" {style}>{}</text>"#, escaped(text));
    }

    /// The address of each bound that has room for it.
    fn addresses(&mut self) {
        let mut free = f64::MIN;
        let last = self.scale.parts.last().map(|(part, _, bottom)| (part.end, *bottom));
        let bounds: Vec<(u64, f64)> = self.scale.parts.iter().map(|(part, top, _)| (part.start, *top)).chain(last).collect();
        for (address, y) in bounds {
            if y >= free {
                self.text(LEFT - 12.0, y + 4.0, r#"text-anchor="end""#, &format!("{address:#x}"));
                let _ = writeln!(self.svg, r##"<line x1="{}" y1="{y:.1}" x2="{}" y2="{y:.1}" stroke="#999"/>"##, LEFT - 8.0, LEFT - 2.0);
                free = y + LABEL;
            }
        }
    }

    fn guest(&mut self, index: usize, guest: &Guest) {
        let x = LEFT + COLUMN * index as f64;
        let colour = FRAMES[index % FRAMES.len()];
        self.text(x, TOP - 34.0, r#"font-weight="bold""#, &guest.name);
        for (offset, head) in [(0.0, "grants"), (60.0, "frames"), (150.0, "tables")] {
            self.text(x + offset, TOP - 12.0, r##"fill="#555""##, head);
        }
        for range in guest.grants.iter().flatten() {
            self.rectangle(x, 52.0, *range, &format!(r##"fill="{GRANTS}" stroke="#888""##), &format!("{} was granted {range}", guest.name));
        }
        for range in &guest.frames {
            self.rectangle(
                x + 60.0,
                82.0,
                *range,
                &format!(r#"fill="{colour}" stroke="white""#),
                &format!("{} reaches {range}", guest.name),
            );
        }
        for range in &guest.tables {
            self.rectangle(
                x + 150.0,
                52.0,
                *range,
                &format!(r#"fill="{TABLES}" stroke="white""#),
                &format!("stage 2 of {} at {range}", guest.name),
            );
        }
    }

    /// Findings lie behind the guests, so that what is shared is seen, and are framed over them.
    fn behind(&mut self, finding: &Finding, width: f64) {
        self.rectangle(LEFT - 6.0, width, finding.frames, &format!(r#"fill="{WRONG}" fill-opacity="0.2""#), &finding.to_string());
    }

    fn framed(&mut self, finding: &Finding, width: f64) {
        let style = format!(r#"fill="none" stroke="{WRONG}" stroke-width="2" pointer-events="none""#);
        self.rectangle(LEFT - 6.0, width, finding.frames, &style, &finding.to_string());
    }

    /// What is found, beside it, one below the other.
    fn labels(&mut self, findings: &[Finding], x: f64) {
        let middle = |(top, bottom): (f64, f64)| (top + bottom) / 2.0 + 4.0;
        let mut labels: Vec<(f64, String)> =
            findings.iter().map(|finding| (middle(self.scale.extent(finding.frames)), finding.to_string())).collect();
        labels.sort_by(|a, b| a.0.total_cmp(&b.0));
        let mut free = f64::MIN;
        for (y, label) in labels {
            let y = y.max(free);
            self.text(x, y, &format!(r#"fill="{WRONG}" font-weight="bold""#), &label);
            free = y + LINE;
            self.bottom = self.bottom.max(y);
        }
    }
}

/// What is not drawn because nobody knows it.
fn missing(guests: &[Guest]) -> Vec<String> {
    let mut missing = Vec::new();
    for guest in guests {
        let absent = guest.absent.iter().map(|(ipas, _)| (ipas, "is not in the capture"));
        let unsettled = guest.unsettled.iter().map(|ipas| (ipas, "is unsettled by Arm"));
        missing.extend(absent.chain(unsettled).map(|(ipas, why)| format!("Not drawn: IPAs {ipas} of {}, what they map {why}", guest.name)));
    }
    missing
}

/// The bounds of findings are drawn too.
fn scale(guests: &[Guest], findings: &[Finding]) -> Scale {
    let mut ranges = all_ranges(guests);
    ranges.extend(findings.iter().map(|finding| finding.frames));
    Scale::of(&ranges)
}

pub fn svg(guests: &[Guest], findings: &[Finding]) -> String {
    let scale = scale(guests, findings);
    let mut picture = Picture { svg: String::new(), bottom: scale.bottom(), scale };
    let columns = COLUMN * guests.len() as f64;
    picture.text(16.0, 26.0, r#"font-size="16" font-weight="bold""#, TITLE);
    picture.addresses();
    for finding in findings {
        picture.behind(finding, columns);
    }
    for (index, guest) in guests.iter().enumerate() {
        picture.guest(index, guest);
    }
    for finding in findings {
        picture.framed(finding, columns);
    }
    picture.labels(findings, LEFT + columns + 2.0);
    let missing = missing(guests);
    let mut bottom = picture.bottom + 20.0;
    for what in &missing {
        bottom += LINE;
        picture.text(16.0, bottom, &format!(r#"fill="{WRONG}" font-weight="bold""#), what);
    }
    bottom += LINE;
    let said = match (findings.len(), missing.len()) {
        (0, 0) => "Heights are not to scale. Nothing stands out.".to_string(),
        (count, _) => format!("Heights are not to scale. {count} findings in red."),
    };
    picture.text(16.0, bottom, r##"fill="#555""##, &said);
    let longest = |lengths: &mut dyn Iterator<Item = usize>| LETTER * lengths.max().unwrap_or(0) as f64;
    let beside = LEFT + columns + 30.0 + longest(&mut findings.iter().map(|finding| finding.to_string().len()));
    let below = 32.0 + longest(&mut missing.iter().map(String::len));
    let (width, height) = (beside.max(below).max(TITLE_WIDTH), bottom + 24.0);
    format!(
        r#"<svg xmlns="http://www.w3.org/2000/svg" width="{width:.0}" height="{height:.0}" viewBox="0 0 {width:.0} {height:.0}" font-family="sans-serif" font-size="12">
<rect width="100%" height="100%" fill="white"/>
{}</svg>
"#,
        picture.svg
    )
}
