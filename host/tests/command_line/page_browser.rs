//! The page in a real browser, where Chromium is on the path.

use crate::browser::{field, program, Browser};
use crate::common::say;
use crate::run::{file, run};
use std::fs;

/// A game in PGSolver's format, two of whose vertices are merged.
const NAMED: &[u8] = b"parity 4; 0 2 0 1,2 \"idle\"; 1 0 1 0 \"Doors open\"; 2 1 0 2; 3 0 1 4 \"doors ajar\"; 4 2 0 3,2 \"idle again\";";

/// Opens a browser, or says loudly that there is none.
fn started(name: &str) -> Option<Browser> {
    let browser = program().map(|program| Browser::start(&program, name));
    if browser.is_none() {
        say(format!(
            "{name}: **** NOTE: no Chromium on the PATH: the page isn't opened in a browser ****"
        ));
    }
    browser
}

/// A file with the page that the words give.
fn page(name: &str, words: &[&str]) -> String {
    let page = run(&[&["page"], words].concat()).bytes();
    file(name, &page)
}

/// How many rows of the merged vertices are seen.
const SEEN: &str = "[...document.querySelectorAll('#merged tbody')].filter(row => row.offsetHeight > 0).map(row => row.id).join()";

#[test]
fn a_browser_shows_it_without_an_error() {
    let Some(mut browser) = started("page-shown") else { return };
    let game = file("shown.pg", NAMED);
    for (name, words) in [
        ("shown.html", &["games/lift-doors.txt", "--solution", "games/lift-doors.sol"][..]),
        ("shown-named.html", &[&game]),
    ] {
        for width in [1200, 400] {
            browser.open(&page(name, words), width, true);
            assert!(browser.told.is_empty(), "{:?}", browser.told);
            assert!(browser.holds("document.querySelectorAll('svg .node').length > 0"));
            assert!(
                browser.holds(&format!("document.documentElement.scrollWidth <= {width}")),
                "{name} {width}"
            );
        }
    }
}

/// Writes into the field that searches.
fn search(browser: &mut Browser, words: &str) {
    browser.value(&format!(
        "(() => {{ const find = document.getElementById('find'); find.value = '{words}'; \
         find.dispatchEvent(new Event('input')); return 1; }})()"
    ));
}

#[test]
fn search_sorting_and_folding() {
    let Some(mut browser) = started("page-searched") else { return };
    browser.open(&page("searched.html", &["games/lift-doors.txt"]), 1200, true);
    let all = "vertex-7,vertex-8,vertex-9,vertex-10,vertex-11,vertex-12,vertex-13";
    assert_eq!(browser.value(SEEN), all);
    for (words, seen) in [("8", "vertex-8"), (" 13 ", "vertex-13"), ("99", ""), ("", all)] {
        search(&mut browser, words);
        assert_eq!(browser.value(SEEN), seen, "{words}");
    }
    browser.click("#merged thead button");
    assert!(browser.value(SEEN).starts_with("vertex-7,"));
    browser.click("#merged thead button");
    assert!(browser.value(SEEN).starts_with("vertex-13,vertex-12,"));
    let opened = "document.querySelectorAll('details[open]').length";
    browser.click("#open");
    assert_eq!(browser.value(opened), browser.value("document.querySelectorAll('details').length"));
    browser.click("#close");
    assert_eq!(browser.value(opened), "0");
    // A link to a vertex that the search hides shows it, with its reason.
    search(&mut browser, "8");
    browser.value("(location.hash = '#vertex-7', 1)");
    while !browser.holds("document.querySelector('#vertex-7 details').open") {}
    assert_eq!(browser.value(SEEN).split(',').count(), 7);
    assert!(browser.told.is_empty(), "{:?}", browser.told);
}

#[test]
fn search_by_name() {
    let Some(mut browser) = started("page-named") else { return };
    let game = file("named.pg", NAMED);
    browser.open(&page("named.html", &[&game]), 1200, true);
    assert_eq!(browser.value(SEEN), "vertex-3,vertex-4");
    for (words, seen) in [("DOORS", "vertex-3"), ("idle", "vertex-4"), ("4", "vertex-4")] {
        search(&mut browser, words);
        assert_eq!(browser.value(SEEN), seen, "{words}");
    }
}

#[test]
fn folding_and_links_need_no_script() {
    let Some(mut browser) = started("page-plain") else { return };
    for with_scripts in [false, true] {
        browser.open(&page("plain.html", &["games/lift-doors.txt"]), 1200, with_scripts);
        assert_eq!(
            browser.holds("document.getElementById('tools').offsetHeight > 0"),
            with_scripts
        );
        let is_open = "document.querySelector('#vertex-7 details').open";
        assert!(!browser.holds(is_open));
        browser.click("#vertex-7 summary");
        assert!(browser.holds(is_open));
        // And by the keyboard.
        browser.press("Enter", 13, "\r");
        assert!(!browser.holds(is_open));
    }
}

/// The least contrast of text to what is behind it.
const CONTRAST: &str = "(() => {
  const part = (c) => { c /= 255; return c <= 0.04045 ? c / 12.92 : ((c + 0.055) / 1.055) ** 2.4; };
  const light = ([r, g, b]) => 0.2126 * part(r) + 0.7152 * part(g) + 0.0722 * part(b);
  const numbers = (colour) => colour.match(/[0-9.]+/g).map(Number);
  const behind = (of) => {
    for (; of; of = of.parentElement) {
      const colour = numbers(getComputedStyle(of).backgroundColor);
      if (colour.length === 3 || colour[3] > 0) { return colour; }
    }
    return [255, 255, 255];
  };
  let least = 99;
  for (const of of document.querySelectorAll('h1, h2, p, a, td, th, code, summary, caption, figcaption, label, input, button, bdi')) {
    if (of.closest('svg')) { continue; }
    const [one, other] = [light(numbers(getComputedStyle(of).color)), light(behind(of))];
    least = Math.min(least, (Math.max(one, other) + 0.05) / (Math.min(one, other) + 0.05));
  }
  return Math.floor(100 * least);
})()";

#[test]
fn contrast_is_enough_in_light_and_dark() {
    let Some(mut browser) = started("page-contrast") else { return };
    browser.open(&page("contrast.html", &["games/lift-doors.txt"]), 1200, true);
    let mut backs = Vec::new();
    for scheme in ["light", "dark"] {
        let words =
            format!("\"features\":[{{\"name\":\"prefers-color-scheme\",\"value\":\"{scheme}\"}}]");
        browser.call("Emulation.setEmulatedMedia", &words);
        let least: u32 = browser.value(CONTRAST).parse().expect("a number");
        assert!(least >= 450, "{scheme}: {least} hundredths");
        backs.push(browser.value("getComputedStyle(document.body).backgroundColor"));
    }
    assert_ne!(backs[0], backs[1]);
}

#[test]
fn it_prints_on_a4() {
    let Some(mut browser) = started("page-printed") else { return };
    browser.open(&page("printed.html", &["games/lift-doors.txt"]), 1200, false);
    browser.call("Emulation.setEmulatedMedia", "\"media\":\"print\"");
    assert!(browser
        .holds("document.querySelector('#vertex-7 .reason').getBoundingClientRect().height > 0"));
    assert!(browser.holds("document.querySelector('nav').offsetHeight === 0"));
    let printed = browser.call("Page.printToPDF", "\"preferCSSPageSize\":true");
    let path = file("printed.base64", field(&printed, "data").as_bytes());
    let decoded =
        std::process::Command::new("base64").args(["-d", &path]).output().expect("base64");
    let pdf = String::from_utf8_lossy(&decoded.stdout).into_owned();
    let boxes: Vec<&str> =
        pdf.split("/MediaBox [0 0 ").skip(1).filter_map(|rest| rest.split(']').next()).collect();
    assert!(boxes.len() > 1, "several pages");
    for size in boxes {
        let lengths: Vec<f64> =
            size.split(' ').map(|length| length.parse().expect("a length")).collect();
        assert!((lengths[0] - 595.0).abs() < 1.5 && (lengths[1] - 842.0).abs() < 1.5, "{size}");
    }
    fs::remove_file(path).expect("a file");
}
