//! The page's reasons and dropped edges, beside what `why` and `dropped` print.

use crate::html::Element;
use crate::page::{cells, games, page, rows};
use crate::run::{bytes, file, run};

/// The ids of the pair whose reason stands at an anchor.
fn pair(anchor: &str) -> [&str; 2] {
    let ids = anchor.strip_prefix("why-").and_then(|ids| ids.split_once('-'));
    ids.map(|(v, w)| [v, w]).expect("a reason's anchor")
}

/// What `why` says of a pair alone: whether it is in the order, and the first reason.
fn told(game: &str, [v, w]: [&str; 2]) -> String {
    let printed = run(&["why", game, v, w]).text();
    printed.lines().take(2).collect::<Vec<&str>>().join(" ")
}

#[test]
fn each_reason_is_what_why_prints() {
    for (i, game) in games().into_iter().enumerate() {
        let path = file("page-why.bin", &bytes(&game));
        let page = page(&[&path]);
        let reasons =
            page.class("reason").into_iter().filter(|reason| reason.attribute("id").is_some());
        for reason in reasons.skip(i % 3).step_by(if game[0] > 5 { 3 } else { 1 }) {
            let pair = pair(reason.attribute("id").expect("an anchor"));
            assert_eq!(reason.text(), told(&path, pair));
        }
        assert!(page.class("pair").is_empty(), "each pair that is named has a link");
        for link in page.class("reason").iter().flat_map(|reason| reason.named("a")) {
            let anchor =
                link.attribute("href").and_then(|href| href.strip_prefix('#')).expect("a link");
            let ([x, y], text) = (pair(anchor), link.text());
            let said = ["is", "isn't"].map(|is| format!("{x} {is} below {y}"));
            let claims = ["is", "isn't"].map(|is| format!("Vertex {x} {is} below vertex {y}."));
            assert!(
                said.iter().chain(&claims).any(|start| text.starts_with(start)),
                "{text} at {anchor}"
            );
        }
    }
}

#[test]
fn a_merged_vertex_has_both_directions() {
    for game in games() {
        let path = file("page-both.bin", &bytes(&game));
        let page = page(&[&path]);
        for row in rows(&page, "merged") {
            let (cells, reasons) = (cells(row), row.class("reason"));
            let both = [[&*cells[0], &*cells[1]], [&*cells[1], &*cells[0]]];
            assert_eq!(reasons.len(), 2);
            for (reason, [v, w]) in reasons.into_iter().zip(both) {
                let claim = format!("Vertex {v} is below vertex {w}.");
                assert!(reason.text().starts_with(&claim), "{}", reason.text());
                assert!(page.id(&format!("why-{v}-{w}")).is_some());
            }
        }
    }
}

/// The anchor of the reason in a row, which stands there or is linked.
fn anchor(row: &Element) -> String {
    let reason = row.class("reason")[0];
    let link = || reason.named("a")[0].attribute("href").map(|href| &href[1..]);
    reason.attribute("id").or_else(link).expect("an anchor").into()
}

#[test]
fn dropped_edges_are_what_dropped_and_dot_print() {
    let mut count = [0, 0];
    for game in games() {
        let path = file("page-dropped.bin", &bytes(&game));
        let page = page(&[&path]);
        let (between, alone): (Vec<&Element>, Vec<&Element>) =
            rows(&page, "dropped").into_iter().partition(|row| cells(row)[0].contains("->"));
        let line = |row: &&Element| {
            let reason = page.id(&anchor(row)).expect("a reason").text();
            format!("{} {reason}\n", cells(row)[2])
        };
        let lines: String = between.iter().map(line).collect();
        let printed = run(&["dropped", &path]).text();
        assert_eq!(if between.is_empty() { "no edge is dropped\n" } else { &lines }, printed);
        for row in &alone {
            let [source, target, better] = &cells(row)[..] else { panic!("three cells") };
            let ends = anchor(row);
            let mut ends = pair(&ends);
            ends.sort();
            let mut expected = [&**target, &**better];
            expected.sort();
            assert_eq!(ends, expected, "from {source}");
            assert!(page.id(&anchor(row)).expect("a reason").text().contains(" is below "));
        }
        count = [count[0] + between.len(), count[1] + alone.len()];
        let dot = run(&["dot", &path]).text();
        let dashed = dot.lines().filter(|line| line.contains("style=dashed")).count();
        let of = if dashed == 1 {
            "1 edge of the game has none".into()
        } else {
            format!("{dashed} edges of the game have none")
        };
        assert!(page.id("summary").expect("a summary").text().contains(&of), "{of}");
    }
    assert!(count.iter().all(|&count| count > 0), "some of each kind: {count:?}");
}

#[test]
fn vertices_that_look_alike_have_the_pass_that_parts_them() {
    for game in games().into_iter().step_by(2) {
        let path = file("page-alike.bin", &bytes(&game));
        let page = page(&[&path]);
        for row in rows(&page, "apart") {
            let cells = cells(row);
            let both =
                [[&*cells[0], &*cells[1]], [&*cells[1], &*cells[0]]].map(|pair| told(&path, pair));
            assert!(both.iter().any(|told| told.contains(" isn't below ")), "{both:?}");
            for told in both {
                match told.split_once(" Pass ") {
                    Some((_, pass)) => {
                        let pass = pass.split(' ').next().expect("a number");
                        assert!(cells[2].contains(&format!("pass {pass}")), "{told}: {}", cells[2]);
                    }
                    None => assert!(
                        cells[2].ends_with("; the other way round they fit"),
                        "{told}: {}",
                        cells[2]
                    ),
                }
            }
        }
    }
}
