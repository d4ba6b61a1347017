//! The page's pictures, beside what `dot` and `order` write.

use crate::html::Element;
use crate::page::page;
use crate::run::{file, numbers, run};

/// The edges of a drawing, and how many of them are dashed.
fn edges(figure: &Element) -> [usize; 2] {
    [figure.class("edge").len(), figure.class("dropped").len()]
}

/// The same of what `dot` writes.
fn edges_of_dot(words: &[&str]) -> [usize; 2] {
    let text = run(words).text();
    ["->", "style=dashed"].map(|mark| text.lines().filter(|line| line.contains(mark)).count())
}

#[test]
fn drawings_have_the_edges_and_colours_of_dot() {
    for (game, sizes) in [("games/d.txt", [6, 5]), ("games/lift-doors.txt", [14, 7])] {
        let page = page(&[game]);
        let figures = page.id("picture").expect("a picture").named("figure");
        assert_eq!([0, 1].map(|i| figures[i].class("node").len()), sizes);
        assert_eq!(edges(figures[0]), edges_of_dot(&["dot", game]));
        assert_eq!(edges(figures[1]), edges_of_dot(&["dot", game, "--reduced"]));
        let dot = run(&["dot", game]).text();
        let fills = |figure: &Element| -> Vec<String> {
            let shapes = figure.named("polygon");
            shapes.iter().filter_map(|shape| shape.attribute("fill").map(String::from)).collect()
        };
        let colours = [0, 1].map(|i| fills(figures[i]));
        assert!(colours[0].iter().all(|colour| dot.contains(colour)), "{colours:?}");
        assert_eq!(
            colours[0].len(),
            2 * colours[1].len(),
            "all classes of several have two members"
        );
        for i in 0..2 {
            let title = figures[i].named("svg")[0].named("title")[0].text();
            assert_eq!(title, ["The game", "The reduced game"][i]);
        }
    }
}

/// The squares that a path of rectangles covers.
fn covered(path: &str) -> usize {
    let area = |rectangle: &str| {
        let (_, sides) = rectangle.split_once('h').expect("a width");
        let (width, rest) = sides.split_once('v').expect("a height");
        let height = rest.split_once('h').expect("back").0;
        [width, height]
            .map(|side| side.parse::<usize>().expect("a number"))
            .iter()
            .product::<usize>()
    };
    path.split('z').filter(|rectangle| !rectangle.is_empty()).map(area).sum()
}

#[test]
fn a_matrix_has_the_marks_of_the_order() {
    for (seed, priorities) in [("3", "2"), ("4", "1"), ("5", "4")] {
        let game = file("page-matrix.txt", &run(&["seed", seed, "80", "2", priorities]).bytes());
        let page = page(&[&game]);
        let picture = page.id("picture").expect("a picture");
        assert!(picture.class("node").is_empty(), "80 vertices are too many to draw");
        let marked = picture.class("marked")[0].attribute("d").expect("a path");
        let ones =
            numbers(&run(&["order", &game]).text()).iter().filter(|&&mark| mark == 1).count();
        assert_eq!(covered(marked), ones);
        assert_eq!(picture.named("svg")[0].attribute("viewBox"), Some("0 0 80 80"));
        let framed = picture.class("classes")[0].attribute("d").expect("a path");
        let report = run(&["report", &game]).text();
        let several = report
            .lines()
            .filter(|line| line.contains(" members ") && !line.contains(" members 1 "));
        assert_eq!(framed.matches('z').count(), several.count());
    }
}
