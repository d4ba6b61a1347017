//! A game as SVG: Even's vertices are diamonds, Odd's are boxes.

use super::html::{element, line, text, Attribute, Html};
use super::layout::{Layout, Point};

/// The most characters of a vertex's line.
const MOST_SHOWN: usize = 18;

/// The width of a character, of what surrounds a line, and of a loop.
const CHARACTER: f64 = 7.0;
const AROUND: f64 = 18.0;
const LOOP: f64 = 20.0;

/// Half the height of a box and of a diamond.
const HALF_BOX: f64 = 20.0;
const HALF_DIAMOND: f64 = 32.0;

/// How far beside the middle an edge that leads upwards begins and ends.
const BESIDE: f64 = 7.0;

/// The space that the point of an arrow takes.
const ARROW: f64 = 6.0;

/// A vertex of a picture.
pub struct Node {
    pub is_even: bool,
    /// What stands in it, in two lines.
    pub lines: [String; 2],
    /// What a reader is told who points at it.
    pub title: String,
    pub colour: Option<&'static str>,
    /// Where it leads.
    pub anchor: String,
}

/// An edge of a picture, dashed or not.
pub struct Edge {
    pub ends: (usize, usize),
    pub is_dashed: bool,
}

/// A drawing and its width.
pub struct Picture {
    pub html: Html,
    pub width: f64,
}

/// The picture of a graph, with a name for arrows that no other picture of the page has.
pub fn picture(title: &str, name: &str, nodes: &[Node], edges: &[Edge]) -> Picture {
    let is_loop = |v: usize| edges.iter().any(|edge| edge.ends == (v, v));
    let boxes: Vec<f64> = nodes.iter().map(Node::width).collect();
    let rooms: Vec<f64> =
        (0..nodes.len()).map(|v| boxes[v] + if is_loop(v) { 2.0 * LOOP } else { 0.0 }).collect();
    let ends: Vec<(usize, usize)> = edges.iter().map(|edge| edge.ends).collect();
    let layout = Layout::new(&rooms, &ends);
    let mut content = Html::from([line("title", title), arrow(name)]);
    let arrow = format!("url(#{name})");
    for (edge, route) in edges.iter().zip(&layout.edges) {
        let (source, target) = edge.ends;
        let way = match source == target {
            true => around(layout.vertices[source], boxes[source] / 2.0, &nodes[source]),
            false => along(route, [source, target].map(|v| (&nodes[v], boxes[v]))),
        };
        let class = if edge.is_dashed { "edge dropped" } else { "edge" };
        content.push(element(
            "path",
            &[("class", class), ("d", &way), ("marker-end", &arrow)],
            Html::default(),
        ));
    }
    for ((node, &middle), width) in nodes.iter().zip(&layout.vertices).zip(boxes) {
        content.push(node.html(middle, width));
    }
    Picture { html: drawing(title, &layout, content), width: layout.width }
}

fn drawing(title: &str, layout: &Layout, content: Html) -> Html {
    let [width, height] = [layout.width, layout.height].map(|length| length.ceil().to_string());
    let view = format!("0 0 {width} {height}");
    let size = [("viewBox", &*view), ("width", &width), ("height", &height)];
    element("svg", &[&[("role", "group"), ("aria-label", title)], &size[..]].concat(), content)
}

/// The point of the arrows.
fn arrow(name: &str) -> Html {
    let point = element("path", &[("d", "M0 0 8 4 0 8z")], Html::default());
    let attributes = [
        ("id", name),
        ("markerWidth", "8"),
        ("markerHeight", "8"),
        ("refX", "2"),
        ("refY", "4"),
        ("orient", "auto"),
    ];
    element("defs", &[], element("marker", &attributes, point))
}

impl Node {
    fn width(&self) -> f64 {
        let longest = self.lines.iter().map(|line| line.chars().count()).max().unwrap_or(0);
        let width = CHARACTER * longest as f64 + AROUND;
        if self.is_even {
            1.4 * width
        } else {
            width
        }
    }

    /// Half its height, so far beside its middle.
    fn half(&self, width: f64, beside: f64) -> f64 {
        match self.is_even {
            true => HALF_DIAMOND * (1.0 - 2.0 * beside / width),
            false => HALF_BOX,
        }
    }

    fn html(&self, (x, y): Point, width: f64) -> Html {
        let half = width / 2.0;
        let corners = match self.is_even {
            true => [(x, y - HALF_DIAMOND), (x + half, y), (x, y + HALF_DIAMOND), (x - half, y)],
            false => {
                let (top, bottom) = (y - HALF_BOX, y + HALF_BOX);
                [(x - half, top), (x + half, top), (x + half, bottom), (x - half, bottom)]
            }
        };
        let points = corners.map(|(x, y)| format!("{x:.1},{y:.1}")).join(" ");
        let mut shape: Vec<Attribute> = vec![("points", &points)];
        shape.extend(self.colour.map(|colour| ("fill", colour)));
        let written = |i: usize| {
            let (x, y) = (format!("{x:.1}"), format!("{:.1}", y - 3.0 + 15.0 * i as f64));
            element("text", &[("x", &x), ("y", &y)], text(&self.lines[i]))
        };
        let drawn = [
            line("title", &self.title),
            element("polygon", &shape, Html::default()),
            written(0),
            written(1),
        ];
        element("a", &[("href", &format!("#{}", self.anchor)), ("class", "node")], drawn)
    }
}

/// A text that fits into a vertex.
pub fn fitting(text: &str) -> String {
    match text.chars().count() > MOST_SHOWN {
        true => text.chars().take(MOST_SHOWN - 1).chain(['…']).collect(),
        false => text.into(),
    }
}

/// A loop at the right of a vertex.
fn around((x, y): Point, half: f64, node: &Node) -> String {
    let right = if node.is_even { x + half * (1.0 - 8.0 / HALF_DIAMOND) } else { x + half };
    let (far, from, to) = (right + 1.6 * LOOP, y - 8.0, y + 8.0);
    let near = right + ARROW;
    format!(
        "M{right:.1} {from:.1}C{far:.1} {:.1} {far:.1} {:.1} {near:.1} {to:.1}",
        from - 10.0,
        to + 10.0
    )
}

/// A curve through the points of a route, from the border of one vertex to that of the other. What leads up is beside what leads down.
fn along(route: &[Point], ends: [(&Node, f64); 2]) -> String {
    let is_down = route[1].1 > route[0].1;
    let (beside, down) = if is_down { (0.0, 1.0) } else { (BESIDE, -1.0) };
    let [first, last] = ends.map(|(node, width)| node.half(width, beside));
    let mut points: Vec<Point> = route.iter().map(|&(x, y)| (x + beside, y)).collect();
    let end = points.len() - 1;
    points[0].1 += down * first;
    points[end].1 -= down * (last + ARROW);
    let mut way = format!("M{:.1} {:.1}", points[0].0, points[0].1);
    for ends in points.windows(2) {
        let [(x, y), (x2, y2)] = [ends[0], ends[1]];
        let middle = (y + y2) / 2.0;
        way += &format!("C{x:.1} {middle:.1} {x2:.1} {middle:.1} {x2:.1} {y2:.1}");
    }
    way
}
