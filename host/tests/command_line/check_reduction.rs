//! Reductions of games of any size that other tools may have made, checked.

use crate::large_reductions::{bytes, path, told};
use crate::run::{file, run, run_on, Run};
use std::fs;
use std::path::PathBuf;

/// Vertices 0 and 1 have edges to 2 and 3, loops of priorities 1 and 2.
const GAME: &str = "4 6 / 0 0 1 2 / 0 0 1 1 / 0 1 0 1 2 3 / 2 3 3 2 2 3";
const REDUCED: &str = "3 4 / 0 1 2 / 0 1 1 / 0 0 1 2 / 1 2 1 2";
const CLASSES: &str = "0 0 1 2";

const RIGHT: &str = "right: 4 vertices in 3 classes\n";

/// A run on files with these texts, which no other test has.
fn check(name: &str, texts: [&str; 3], words: &[&str]) -> Run {
    let [game, reduced, classes] = [0, 1, 2].map(|index| {
        let kind = ["game", "reduced", "classes"][index];
        file(&format!("{name}.{kind}.txt"), texts[index].as_bytes())
    });
    run(&[&["check-reduction", &game, &reduced, &classes], words].concat())
}

#[test]
fn a_reduction_that_is_right() {
    let texts = [GAME, REDUCED, CLASSES];
    assert_eq!(check("right", texts, &[]).text(), RIGHT);
    let value = check("right", texts, &["--json"]).text();
    assert_eq!(
        value,
        "{\"accepted\":true,\"vertices\":4,\"edges\":6,\"classes\":3,\"reduced_edges\":4}\n"
    );
    // The edges of a class in any sequence, the classes in binary, and no merge at all.
    assert_eq!(
        check("right", [GAME, "3 4 / 0 1 2 / 0 1 1 / 0 0 1 2 / 2 1 1 2", CLASSES], &[]).text(),
        RIGHT
    );
    let [game, reduced] = [("binary.game.txt", GAME), ("binary.reduced.txt", REDUCED)]
        .map(|(name, text)| file(name, text.as_bytes()));
    let classes = file("binary.classes", &bytes(&[0, 0, 1, 2]));
    assert_eq!(run(&["check-reduction", &game, &reduced, &classes]).text(), RIGHT);
    let same = "4 6 / 0 0 1 2 / 0 0 1 1 / 0 0 1 1 2 3 / 2 3 3 2 2 3";
    assert_eq!(
        check("right", [same, same, "0 1 2 3"], &[]).text(),
        "right: 4 vertices in 4 classes\n"
    );
    assert_eq!(
        check("right", ["1 1 0 0 0 0", "1 1 0 1 0 0", "0"], &[]).text(),
        "right: 1 vertex in 1 class\n"
    );
}

/// The message about texts that are no reduction; gives standard output.
fn wrong(name: &str, reduced: &str, classes: &str, parts: &[&str]) -> String {
    check(name, [GAME, reduced, classes], &[]).fails(1, parts)
}

#[test]
fn each_misfit_is_told() {
    let part = "misfit.classes.txt: wrong: vertex 3 has priority 2, and its class 1 has 1; put the vertex into";
    let told = wrong("misfit", REDUCED, "0 0 1 1", &[part]);
    assert_eq!(told, "wrong at vertex 3\n");
    let more = "4 5 / 0 1 2 2 / 0 1 1 1 / 0 0 1 2 3 / 1 2 1 2 3";
    assert_eq!(
        wrong("misfit", more, CLASSES, &["wrong: class 3 has no member; leave the class out"]),
        "wrong at class 3\n"
    );
    let fewer = "3 3 / 0 1 2 / 0 1 1 / 0 1 2 / 1 1 2";
    let part = "wrong: edge 2 leads from vertex 0 to 3, but the reduced game has no edge from class 0 to 2; put the vertex into another class";
    assert_eq!(wrong("misfit", fewer, CLASSES, &[part]), "wrong at edge 2\n");
    let extra = "3 5 / 0 1 2 / 0 1 1 / 0 0 0 1 2 / 0 1 2 1 2";
    let part =
        "wrong: class 0 has an edge to 0, but its member 0 has none to a vertex of class 0; ";
    assert_eq!(wrong("misfit", extra, CLASSES, &[part]), "wrong at vertex 0\n");
    let owner = "3 4 / 0 1 2 / 1 1 1 / 0 0 1 2 / 1 2 1 2";
    let part = "wrong: vertex 0 is Even's, but its class 0 is Odd's and has more than one edge; put vertices of one owner alone";
    assert_eq!(wrong("misfit", owner, CLASSES, &[part]), "wrong at vertex 0\n");
    let twice = "3 5 / 0 1 2 / 0 1 1 / 0 0 0 1 2 / 1 2 1 1 2";
    let part = "wrong: edge 2 of the reduced game, from class 0 to 1, is there already; write each edge of the reduced game once";
    assert_eq!(wrong("misfit", twice, CLASSES, &[part]), "wrong at reduced edge 2\n");
    let stuck = check("misfit", ["2 1 / 0 0 / 0 0 / 0 / 0", "1 1 0 0 0 0", "0 0"], &[]);
    assert_eq!(
        stuck.fails(1, &["wrong: vertex 1 has no edge out; give each vertex"]),
        "wrong at vertex 1\n"
    );
    let json =
        check("misfit", [GAME, owner, CLASSES], &["--json"]).fails(1, &["wrong: vertex 0 is"]);
    assert!(
        json.starts_with("{\"accepted\":false,\"refusal\":null,\"message\":\"")
            && json.ends_with(",\"vertex\":0}\n"),
        "{json}"
    );
}

#[test]
fn each_refusal_is_told() {
    let refused = |reduced: &str, classes: &str, part: &str, verdict: &str| {
        let out = wrong("refusal", reduced, classes, &[&format!("{part}: refused {verdict}: ")]);
        assert_eq!(out, format!("refused {verdict}\n"));
    };
    refused("", CLASSES, "refusal.reduced.txt: word 0 from 0", "91 at 0");
    refused("0 0", CLASSES, "word 0 from 0", "92 at 0");
    refused("1 1 0 0 0", CLASSES, "word 5 from 0", "94 at 5");
    refused("1 1 0 2 0 0", CLASSES, "word 3 from 0", "95 at 3");
    refused("1 1 0 0 0 1", CLASSES, "word 5 from 0", "96 at 5");
    refused(
        "3 4 / 0 1 2 / 0 1 1 / 0 1 0 2 / 1 1 2 2",
        CLASSES,
        "refusal.reduced.txt: edge 2, from vertex 0 to 2",
        "97 at 2",
    );
    refused(
        REDUCED,
        "0 0 1",
        "refusal.classes.txt: 3 words, and the game has 4 vertices",
        "98 at 3",
    );
    refused(REDUCED, "0 0 1 3", "refusal.classes.txt: vertex 3, class 3", "99 at 3");
    let value =
        check("refusal", [GAME, REDUCED, "0 0 1"], &["--json"]).fails(1, &["refused 98 at 3"]);
    assert!(
        value.starts_with("{\"accepted\":false,\"refusal\":{\"number\":98,\"place\":3,"),
        "{value}"
    );
}

#[test]
fn bad_files() {
    check("bad", ["1 1 0 0 0 1", REDUCED, CLASSES], &[])
        .fails(1, &["bad.game.txt: word 5 from 0: refused 6 at 5: "]);
    let classes = check("bad", [GAME, REDUCED, "0 0 x 2"], &[]);
    classes.fails(2, &["bad.classes.txt: line 1: `x` instead of a number; write decimal numbers"]);
    check("bad", [GAME, "parity 0; 0 0", CLASSES], &[])
        .fails(2, &["bad.reduced.txt: line 1, id 0: "]);
    run(&["check-reduction", "games/c.txt", "games/none", "games/c.txt"])
        .fails(2, &["games/none: no such file or directory"]);
    run(&["check-reduction", "games/c.txt", "games/c.txt"])
        .fails(2, &["number of arguments: 2 instead of 3"]);
}

#[test]
fn inputs_that_are_standard_input() {
    let [game, reduced, classes] =
        [("in.game.txt", GAME), ("in.reduced.txt", REDUCED), ("in.classes.txt", CLASSES)]
            .map(|(name, text)| (file(name, text.as_bytes()), text));
    for (index, text) in [game.1, reduced.1, classes.1].into_iter().enumerate() {
        let mut words = ["check-reduction", &game.0, &reduced.0, &classes.0];
        words[index + 1] = "-";
        assert_eq!(run_on(&words, text.as_bytes()).text(), RIGHT);
    }
    run(&["check-reduction", "-", &reduced.0, "-"]).fails(2, &["two inputs are standard input"]);
    run(&["check-reduction", "-", &reduced.0, &classes.0, "--certificate=-"])
        .fails(2, &["two inputs are standard input"]);
    run(&["winners", "-", "-"]).fails(2, &["two inputs are standard input"]);
    let solved = file("in.sol", b"paritysol 2; 0 0 2; 1 1 1; 2 0;");
    let text = run_on(&["winners", "-", &solved, "--large"], GAME.as_bytes()).text();
    assert!(
        text.starts_with(
            "right: Even wins at 3 vertices, Odd at 1\nvertex 0: Even wins, as in class 0\n"
        ),
        "{text}"
    );
}

#[test]
fn a_certificate_by_two_runs() {
    let texts = [GAME, REDUCED, CLASSES];
    let saved = path("saved.cert");
    assert_eq!(check("saved", texts, &["--save-certificate", &saved]).text(), RIGHT);
    assert_eq!(check("saved", texts, &["--certificate", &saved]).text(), RIGHT);
    assert_eq!(fs::read(&saved).expect("a certificate").len(), 32 + 4 * (4 + 3 + 2 * 6));
    let other = check("saved", [GAME, REDUCED, "0 0 1 1"], &["--certificate", &saved]);
    other.fails(2, &["saved.cert: the certificate of another game or reduction"]);
    let unsaved = path("unsaved.cert");
    check("saved", [GAME, REDUCED, "0 0 1 1"], &["--save-certificate", &unsaved])
        .fails(1, &["wrong"]);
    assert!(!PathBuf::from(&unsaved).exists(), "nothing is saved of a wrong reduction");
    check("saved", texts, &["--certificate=x", "--save-certificate=y"])
        .fails(2, &["exclude each other"]);
    check("saved", texts, &["--save-certificate=/none/a"])
        .fails(2, &["/none/a: no such file or directory; name a file that can be written"]);
    check("saved", texts, &["--certificate=/none/a"])
        .fails(2, &["/none/a: no such file or directory; name a file that can be read"]);
    run(&["check-solution", "games/c.txt", "games/c.sol", "--certificate", &saved])
        .fails(2, &["no certificate of a solution, which begins with `rskjcert`"]);
}

/// The message about a saved certificate with some bytes changed.
fn damaged(change: impl Fn(&mut Vec<u8>), status: i32, part: &str) {
    let (texts, saved) = ([GAME, REDUCED, CLASSES], path("damaged.cert"));
    check("damaged", texts, &["--save-certificate", &saved]).text();
    let mut certificate = fs::read(&saved).expect("a certificate");
    change(&mut certificate);
    fs::write(&saved, &certificate).expect("a file");
    check("damaged", texts, &["--certificate", &saved]).fails(status, &[&saved, part]);
}

#[test]
fn damaged_certificates() {
    damaged(|bytes| bytes.truncate(40), 2, ": cut off: 40 bytes of 108; save or copy it again");
    damaged(|bytes| bytes.push(0), 2, ": more than the 108 bytes");
    damaged(
        |bytes| bytes[0] = b'R',
        2,
        ": no certificate of a reduction, which begins with `rskjredu`",
    );
    damaged(|bytes| bytes[16] = 5, 2, ": the certificate of a game with 5 vertices and 6 edges");
    damaged(|bytes| bytes[31] ^= 1, 2, ": the certificate of another game or reduction");
    // Starts of 4 vertices, members of 3 classes, images of 6 edges, then the edges after them.
    damaged(|bytes| bytes[32] = 1, 1, ": vertex 0: refused 104 at 0: ");
    damaged(|bytes| bytes[32 + 4 * 4] = 3, 1, ": class 0: refused 102 at 0: ");
    damaged(|bytes| bytes[32 + 4 * 7] = 1, 1, ": edge 0, from vertex 0 to 2: refused 103 at 0: ");
    damaged(|bytes| bytes[32 + 4 * 13] = 1, 1, ": edge 0, from vertex 0 to 2: refused 106 at 0: ");
    damaged(
        |bytes| bytes[32] = 2,
        1,
        "leave --certificate out, so that one is made or the reason told",
    );
}

#[test]
fn a_certificate_of_what_is_no_reduction() {
    // Priorities and owners are judged whatever the certificate says.
    let certificate = |reduced: &str, classes: &str, number: &str| {
        let saved = path("none.cert");
        check("none", [GAME, REDUCED, CLASSES], &["--save-certificate", &saved]).text();
        let mut bytes = fs::read(&saved).expect("a certificate");
        bytes[24..32].fill(0);
        fs::write(&saved, &bytes).expect("a file");
        check("none", [GAME, reduced, classes], &["--certificate", &saved]).fails(1, &[number]);
    };
    certificate(
        "3 4 / 0 1 3 / 0 1 1 / 0 0 1 2 / 1 2 1 2",
        CLASSES,
        "none.classes.txt: vertex 3: refused 100 at 3: ",
    );
    certificate(
        "3 4 / 0 1 2 / 1 1 1 / 0 0 1 2 / 1 2 1 2",
        CLASSES,
        "none.cert: vertex 0: refused 105 at 0: ",
    );
}

#[test]
fn priorities_of_another_format() {
    // Written in PGSolver's format, priorities 4 and 5 become 2 and 1, and read again 0 and 1: no lower ones are left.
    let game = file("shift.txt", b"3 3 / 4 5 5 / 0 0 0 / 0 1 2 / 1 0 0");
    let (reduced, classes) = (path("shift.pg"), path("shift.classes.txt"));
    let words =
        ["reduce", &game, "--large", "--as=pgsolver", "-o", &reduced, "--classes", &classes];
    told(run(&words), &["3 vertices merged by their moves into 2, with 2 edges; "]);
    assert_eq!(fs::read_to_string(&reduced).expect("a game"), "parity 1;\n0 2 0 1;\n1 1 0 0;\n");
    let right = "right: 3 vertices in 2 classes\n";
    assert_eq!(run(&["check-reduction", &game, &reduced, &classes]).text(), right);
    let highest = file("shift.game.pg", b"parity; 0 8 0 1; 1 7 0 0; 2 7 0 0;");
    assert_eq!(run(&["check-reduction", &highest, &reduced, &classes]).text(), right);
    let odd = file("shift.odd.pg", b"parity; 0 1 0 1; 1 0 0 0;");
    let part = "wrong: vertex 0 has priority 4, and its class 0 has 1; ";
    run(&["check-reduction", &game, &odd, &classes]).fails(1, &[part]);
    let other = file("shift.other.pg", b"parity; 0 2 0 1; 1 0 0 0;");
    run(&["check-reduction", &highest, &other, &classes])
        .fails(1, &["wrong: vertex 1 has priority 7, and its class 1 has 0; "]);
}
