//! The picture: the path of one lookup, by which a newcomer that knows one bench finds those near itself.

use crate::bench::{Bench, Role};
use crate::path::Path;
use starterbell::{Node, Room};
use std::collections::BTreeMap;
use std::fmt::Write;

const WIDTH: f64 = 1200.0;
/// The first and the last request stand here.
const FIRST: f64 = 236.0;
const LAST: f64 = 1030.0;
/// Names end here, and what came of a bench starts there.
const NAMES: f64 = 150.0;
const ENDS: f64 = 1066.0;
/// Where the rows start, and how high each is.
const TOP: f64 = 214.0;
const ROW: f64 = 25.0;
/// Half the width of a mark.
const MARK: f64 = 9.5;

const PAPER: &str = "#fbfaf6";
const STYLE: &str = "text { font-family: 'Helvetica Neue', Helvetica, Arial, sans-serif; fill: #22313a; font-size: 19px; } \
    .title { font-size: 37px; font-weight: 600; } .quiet { fill: #6b7a80; } .end { text-anchor: end; } .middle { text-anchor: middle; } .rank { font-weight: 600; } \
    .row { stroke: #ebe6da; } .dot { fill: #22313a; fill-opacity: .28; } .found { stroke: #22313a; stroke-opacity: .3; stroke-width: 1.6; } \
    .named { fill: none; stroke-width: 1.8; stroke: #1f6f8b; stroke-opacity: .6; } .lie { stroke: #c23b33; stroke-dasharray: 7 4; stroke-opacity: .8; } \
    .mark { stroke-width: 3; }";

/// What somebody who was named is: each has a shape and a colour of its own.
#[derive(Clone, Copy, PartialEq)]
enum Kind {
    Honest,
    Silent,
    Liar,
    /// There is no such bench: a liar made it up.
    MadeUp,
}

impl Kind {
    const ALL: [Kind; 4] = [Kind::Honest, Kind::Liar, Kind::Silent, Kind::MadeUp];

    fn says(self) -> &'static str {
        match self {
            Kind::Honest => "honest",
            Kind::Silent => "silent",
            Kind::Liar => "liar",
            Kind::MadeUp => "made up: there is nobody",
        }
    }

    fn colour(self) -> &'static str {
        match self {
            Kind::Honest => "#1f6f8b",
            Kind::Silent => "#b5760c",
            Kind::Liar => "#c23b33",
            Kind::MadeUp => "#7b5aa6",
        }
    }

    /// A circle, a square, a triangle, a cross. Filled where it answered.
    fn shape(self, x: f64, y: f64, filled: bool) -> String {
        let (r, colour) = (MARK, self.colour());
        let outline = match self {
            Kind::Honest => format!("M{:.1} {y:.1} a{r} {r} 0 1 0 {} 0 a{r} {r} 0 1 0 -{} 0 Z", x - r, 2.0 * r, 2.0 * r),
            Kind::Silent => format!("M{:.1} {:.1} h{} v{} h-{} Z", x - r + 1.0, y - r + 1.0, 2.0 * r - 2.0, 2.0 * r - 2.0, 2.0 * r - 2.0),
            Kind::Liar => format!("M{x:.1} {:.1} L{:.1} {:.1} H{:.1} Z", y - r - 1.0, x + r + 0.5, y + r - 1.5, x - r - 0.5),
            Kind::MadeUp => format!("M{:.1} {:.1} l{} {} m0 -{} l-{} {}", x - r + 1.5, y - r + 1.5, 16, 16, 16, 16, 16),
        };
        let fill = if filled { colour } else { PAPER };
        format!(r#"<path class="mark" fill="{fill}" stroke="{colour}" d="{outline}"/>"#)
    }
}

/// Somebody who was named: a row of the picture.
struct Row {
    name: String,
    kind: Kind,
    /// The number of its request, from 0.
    asked: Option<usize>,
    /// Its rank among those found, from 1.
    found: Option<usize>,
}

struct Chart<'a> {
    path: &'a Path,
    /// Nearest to the target first.
    rows: Vec<Row>,
    /// By id.
    places: BTreeMap<Vec<u8>, usize>,
}

/// Of the honest benches that knew one other when they joined, the one whose first lookup took the most requests; and that lookup's path.
pub fn newcomer(benches: &[Bench]) -> Option<(usize, &Path)> {
    let paths = benches.iter().enumerate().filter(|(_, bench)| bench.is_honest()).filter_map(|(n, bench)| Some((n, bench.first.as_ref()?)));
    paths.filter(|(_, path)| path.known.len() == 1).max_by_key(|(_, path)| path.asked.len())
}

/// The place of an id: that of a box with this id.
fn place(id: &[u8]) -> [u8; 32] {
    Node::start(id, &[], Room { contacts: 0, records: 0 }).map_or([0; 32], |node| *node.place())
}

impl<'a> Chart<'a> {
    /// All benches but the newcomer, and whoever else was asked.
    fn new(benches: &[Bench], newcomer: usize, path: &'a Path) -> Chart<'a> {
        let numbers: BTreeMap<&[u8], usize> = benches.iter().enumerate().map(|(n, bench)| (bench.node.id(), n)).collect();
        let made_up = path.asked.iter().map(|asked| &asked.id[..]).filter(|id| !numbers.contains_key(id));
        let mut ids: Vec<&[u8]> = numbers.keys().copied().chain(made_up).filter(|id| numbers.get(id) != Some(&newcomer)).collect();
        ids.sort_by_cached_key(|id| {
            let place = place(id);
            std::array::from_fn::<u8, 32, _>(|i| place[i] ^ path.target[i])
        });
        let row = |id: &[u8]| {
            let (name, kind) = match numbers.get(id) {
                Some(&n) => (format!("bench {n}"), kind(&benches[n].role)),
                None => ("nobody".into(), Kind::MadeUp),
            };
            let asked = path.asked.iter().position(|asked| asked.id == id);
            Row { name, kind, asked, found: path.found.iter().position(|found| found == id).map(|n| n + 1) }
        };
        Chart { path, rows: ids.iter().map(|id| row(id)).collect(), places: ids.iter().zip(0..).map(|(id, n)| (id.to_vec(), n)).collect() }
    }

    fn x(&self, request: usize) -> f64 {
        FIRST + (LAST - FIRST) * request as f64 / (self.path.asked.len().max(2) - 1) as f64
    }

    fn y(&self, row: usize) -> f64 {
        TOP + ROW * row as f64
    }

    /// The row of whom a request went to.
    fn row_of(&self, request: usize) -> usize {
        self.places[&self.path.asked[request].id]
    }

    fn bottom(&self) -> f64 {
        self.y(self.rows.len())
    }
}

fn kind(role: &Role) -> Kind {
    match role {
        Role::Honest => Kind::Honest,
        Role::Silent => Kind::Silent,
        Role::Liar(_) => Kind::Liar,
    }
}

/// The picture of a run. Where no honest bench has joined there is nothing to see.
pub fn draw(benches: &[Bench], subtitle: &str) -> String {
    let Some((number, path)) = newcomer(benches) else { return "<svg xmlns=\"http://www.w3.org/2000/svg\"/>\n".into() };
    let chart = Chart::new(benches, number, path);
    let height = chart.bottom() + 244.0;
    let mut svg = String::new();
    let _ = writeln!(svg, r#"<svg xmlns="http://www.w3.org/2000/svg" viewBox="0 0 {WIDTH} {height}" role="img" aria-label="The path of a lookup">"#);
    let _ = writeln!(svg, r#"<style>{STYLE}</style><rect width="100%" height="100%" fill="{PAPER}"/>"#);
    head(&mut svg, benches, number, path, subtitle);
    (0..chart.rows.len()).for_each(|row| line(&mut svg, &chart, row));
    (0..path.asked.len()).for_each(|request| dots(&mut svg, &chart, request));
    (0..path.asked.len()).for_each(|request| named(&mut svg, &chart, request));
    (0..path.asked.len()).for_each(|request| mark(&mut svg, &chart, request));
    requests(&mut svg, &chart);
    legend(&mut svg, chart.bottom() + 84.0);
    svg.push_str("</svg>\n");
    svg
}

fn text(svg: &mut String, x: f64, y: f64, class: &str, words: &str) {
    let _ = writeln!(svg, r#"<text x="{x:.1}" y="{y:.1}" class="{class}">{words}</text>"#);
}

fn head(svg: &mut String, benches: &[Bench], number: usize, path: &Path, subtitle: &str) {
    let known = benches.iter().position(|bench| path.known.iter().any(|id| id == bench.node.id())).unwrap_or(0);
    let (asked, answers, found) = (path.asked.len(), path.answers(), path.found.len());
    text(svg, 40.0, 66.0, "title", &format!("How bench {number} finds the {found} nearest to itself"));
    text(
        svg,
        40.0,
        104.0,
        "",
        &format!("It has just joined and knows only bench {known}. It asks {asked}, at most three at a time; {answers} answer, and name others."),
    );
    text(svg, 40.0, 132.0, "quiet", subtitle);
    text(svg, NAMES + 42.0, TOP - 32.0, "quiet end", "nearest first");
    text(svg, ENDS, TOP - 32.0, "quiet", "found");
}

/// A bench's row: who it is, and what came of it.
fn line(svg: &mut String, chart: &Chart, row: usize) {
    let (y, Row { name, kind, asked, found }) = (chart.y(row), &chart.rows[row]);
    let _ = writeln!(svg, r#"<path class="row" d="M{:.1} {y:.1} H{:.1}"/>"#, NAMES + 44.0, LAST + 22.0);
    text(svg, NAMES, y + 6.5, if asked.is_some() { "end" } else { "quiet end" }, name);
    let _ = writeln!(svg, "{}", kind.shape(NAMES + 26.0, y, false));
    match (asked, found) {
        (Some(request), Some(rank)) => {
            let _ = writeln!(svg, r#"<path class="found" d="M{:.1} {y:.1} H{:.1}"/>"#, chart.x(*request), ENDS - 8.0);
            text(svg, ENDS, y + 6.5, "rank", &rank.to_string());
        }
        (Some(request), None) if chart.path.asked[*request].named.is_none() => text(svg, ENDS, y + 6.5, "quiet", "no answer"),
        (Some(_), None) => text(svg, ENDS, y + 6.5, "quiet", "farther"),
        (None, _) => text(svg, ENDS, y + 6.5, "quiet", "not asked"),
    }
}

/// A dot for everybody that an answer named.
fn dots(svg: &mut String, chart: &Chart, request: usize) {
    let x = chart.x(request);
    for row in chart.path.asked[request].named.iter().flatten().filter_map(|id| chart.places.get(id)) {
        let _ = writeln!(svg, r#"<circle class="dot" cx="{x:.1}" cy="{:.1}" r="2.8"/>"#, chart.y(*row));
    }
}

/// A line to whom a request went from who named it first; from the left where it was known from the start.
fn named(svg: &mut String, chart: &Chart, request: usize) {
    let (x, y) = (chart.x(request), chart.y(chart.row_of(request)));
    let Some(namer) = chart.path.namer(&chart.path.asked[request].id) else {
        let _ = writeln!(svg, r#"<path class="named" d="M{:.1} {y:.1} H{x:.1}"/>"#, NAMES + 44.0);
        return;
    };
    let from = chart.row_of(namer);
    let (start_x, start_y) = (chart.x(namer), chart.y(from));
    let lie = if chart.rows[from].kind == Kind::Liar { " lie" } else { "" };
    let bend = (x - start_x) * 0.5;
    let (out, back) = (start_x + bend, x - bend);
    let _ = writeln!(svg, r#"<path class="named{lie}" d="M{start_x:.1} {start_y:.1} C{out:.1} {start_y:.1} {back:.1} {y:.1} {x:.1} {y:.1}"/>"#);
}

/// Whom a request went to, in the place of its number.
fn mark(svg: &mut String, chart: &Chart, request: usize) {
    let row = &chart.rows[chart.row_of(request)];
    let named = &chart.path.asked[request].named;
    let came = named.as_ref().map_or("no answer".into(), |named| format!("named {}", named.len()));
    let shape = row.kind.shape(chart.x(request), chart.y(chart.row_of(request)), named.is_some());
    let (number, name, says) = (request + 1, &row.name, row.kind.says());
    let _ = writeln!(svg, r#"<g class="asked"><title>request {number}: {name}, {says}: {came}</title>{shape}</g>"#);
}

/// The numbers of the requests.
fn requests(svg: &mut String, chart: &Chart) {
    let y = chart.bottom() + 14.0;
    let count = chart.path.asked.len();
    for request in (0..count).filter(|request| *request == 0 || (request + 1) % 5 == 0) {
        text(svg, chart.x(request), y, "quiet middle", &(request + 1).to_string());
    }
    text(svg, FIRST - 9.0, y + 28.0, "quiet", "requests, in the order in which they were sent");
}

/// Its rows are so far apart.
const LEGEND_ROW: f64 = 31.0;

fn legend(svg: &mut String, top: f64) {
    let row = |n: usize| top + n as f64 * LEGEND_ROW;
    for (n, kind) in Kind::ALL.iter().enumerate() {
        let _ = writeln!(svg, "{}", kind.shape(60.0, row(n), false));
        text(svg, 88.0, row(n) + 6.5, "", kind.says());
    }
    let lines = [
        ("named", "named it first, in the answer to a request"),
        ("named lie", "the same, and it was a liar"),
        ("found", "found: one of the nearest that answered"),
    ];
    for (n, (class, words)) in lines.iter().enumerate() {
        let _ = writeln!(svg, r#"<path class="{class}" d="M440 {} h56"/>"#, row(n));
        text(svg, 512.0, row(n) + 6.5, "", words);
    }
    let _ = writeln!(svg, r#"<circle class="dot" cx="468" cy="{}" r="2.8"/>"#, row(3));
    text(svg, 512.0, row(3) + 6.5, "", "named in the answer to that request");
    let _ = writeln!(svg, "{}{}", Kind::Honest.shape(455.0, row(4), true), Kind::Honest.shape(481.0, row(4), false));
    text(svg, 512.0, row(4) + 6.5, "", "it answered; it gave no answer");
}
