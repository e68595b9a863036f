//! report: the page, and how a browser shows it.

use crate::common::{desk, example, file, folder};
use std::process::{Command, Stdio};

fn page_of(name: &str) -> (std::path::PathBuf, String) {
    let here = folder(name);
    let page = here.join("page.html").display().to_string();
    let state = file(&here, "branch.txt", "(objects 3)\n(true wanted 1)\n(true shelf 1)\n");
    let ended = desk(&["report", &example("liftparts.txt"), &state, "--steps", "1", "-o", &page]);
    assert_eq!((ended.status, ended.err.as_str(), ended.out.as_str()), (0, "", ""));
    (here, page)
}

#[test]
fn the_page_is_whole_and_stands_alone() {
    let (_, page) = page_of("report");
    let html = std::fs::read_to_string(page).expect("a page");
    for part in [
        "id=\"model\"",
        "id=\"growth\"",
        "id=\"cuts\"",
        "id=\"diagram\"",
        "id=\"states\"",
        "(predicate wanted 1)",
        "rows left after the cuts",
        "branch.txt",
        "made for leaf",
        "line 40 of the text",
    ] {
        assert!(html.contains(part), "{part}");
    }
    assert_eq!(html.matches("<svg ").count(), 2);
    for foreign in ["<script", "<link", "<img", "@import", "@font-face", "url(", "src=", "href="] {
        assert!(!html.contains(foreign), "{foreign}");
    }
    assert_eq!(html.matches("http").count(), html.matches("xmlns=\"http://www.w3.org/2000/svg\"").count());
    balanced(&html);
}

/// Every element that is opened is closed, in turn.
fn balanced(html: &str) {
    let mut open: Vec<&str> = Vec::new();
    for tag in html.split('<').skip(1).map(|part| part.split('>').next().expect("a tag")) {
        let name = tag.split([' ', '/']).next().expect("a name");
        match tag {
            _ if tag.starts_with('!') || ["meta", "br"].contains(&name) || tag.ends_with('/') => {}
            _ if tag.starts_with('/') => assert_eq!(open.pop(), tag.get(1..), "near <{tag}>"),
            _ => open.push(name),
        }
    }
    assert!(open.is_empty(), "{open:?}");
}

#[test]
fn steps_and_states_that_are_refused() {
    let here = folder("report_refused");
    let bad = file(&here, "bad.txt", "(objects 3)\n(true wantd 1)\n");
    let ended = desk(&["report", &example("liftparts.txt"), &bad, "--steps", "1"]);
    assert!(ended.err.contains("bad.txt:2:7: name (2)"), "{}", ended.err);
    assert!(ended.out.contains("refused; yindolve-desk value tells why"));
    assert_eq!(ended.status, 1);
    let far = desk(&["report", &example("logistics.txt"), "--steps", "2"]);
    assert!(far.err.contains("the report ends after 1 of 2 steps: space (9)"), "{}", far.err);
    assert!(far.out.contains("1 of 2 steps were done; the next one is refused."));
    assert_eq!(far.status, 1);
    assert_eq!(desk(&["report", &example("logistics.txt")]).status, 0);
}

/// Without the lines total and discount are 100 and 19/20, and the page says so.
#[test]
fn defaults() {
    let here = folder("report_defaults");
    let model = file(&here, "model.txt", "(reward 1)\n(action wait)\n(variant only 100)\n(start)\n");
    let page = desk(&["report", &model, "--steps", "1"]).out;
    for line in ["Weights add up to: 100", "A step later counts: 19/20", "Each step multiplies the scale by: 2,000"] {
        assert!(page.contains(&format!("<li>{line}</li>")), "{line}");
    }
}

fn browser() -> Option<&'static str> {
    let there = |name: &&str| {
        Command::new(name).arg("--version").stdout(Stdio::null()).stderr(Stdio::null()).status().is_ok_and(|status| status.success())
    };
    ["chromium", "chromium-browser", "google-chrome"].into_iter().find(there)
}

/// The page in a browser without a window: its picture is of the size asked for and not blank, and its text is what it should be.
#[test]
fn a_browser_shows_it() {
    let Some(browser) = browser() else {
        println!("no Chromium is installed: that a browser shows the page is left out");
        return;
    };
    let (here, page) = page_of("report_browser");
    let shown = |arguments: &[&str]| {
        let profile = format!("--user-data-dir={}", here.join("profile").display());
        let fixed = ["--headless", "--no-sandbox", "--disable-gpu", "--disable-dev-shm-usage", "--hide-scrollbars", &profile];
        let output = Command::new("timeout")
            .args(["60", browser])
            .args(fixed)
            .args(arguments)
            .arg(format!("file://{page}"))
            .stderr(Stdio::null())
            .output();
        output.expect("the browser runs").stdout
    };
    let picture = here.join("page.png");
    shown(&["--window-size=1200,2400", &format!("--screenshot={}", picture.display())]);
    let png = std::fs::read(&picture).expect("a picture of the page");
    assert_eq!(&png[..8], b"\x89PNG\r\n\x1a\n");
    let size = |at: usize| u32::from_be_bytes(png[at..at + 4].try_into().expect("four bytes"));
    assert_eq!((size(16), size(20)), (1200, 2400));
    assert!(png.len() > 100_000, "a blank page has few bytes: {}", png.len());
    let html = String::from_utf8(shown(&["--dump-dom"])).expect("plain text");
    for part in ["<h2>Growth by step</h2>", "<h2>Sample states</h2>", "<rect class=\"leaf\"", "made for leaf"] {
        assert!(html.contains(part), "{part}");
    }
}
