//! The page in Chromium, by mouse and keys: what its panels say, and that the console stays empty.

mod common;

use common::browser::Browser;
use common::{chart, example, file, flow, folder, good, told};
use std::fs;
use std::io::Write;
use std::path::{Path, PathBuf};

fn made(folder: &Path, name: &str, files: &[&str]) -> PathBuf {
    let page = folder.join(name);
    let out = page.to_str().expect("a path that is text");
    good(&[&["page"], files, &["-o", out, "--source", "."]].concat());
    page
}

#[track_caller]
fn says(browser: &mut Browser, element: &str, expected: &str) {
    let text = browser.text(element);
    let found = text.to_lowercase().contains(&expected.to_lowercase());
    assert!(found, "{element} says '{text}', and not '{expected}'");
}

#[test]
fn a_person_uses_the_page() {
    let folder = folder("browser");
    let Some(mut browser) = Browser::start(&folder.join("profile")) else {
        // written past the capture, so that who runs the tests is told
        writeln!(
            std::io::stderr(),
            "chromium is not there: no page was clicked"
        )
        .ok();
        return;
    };
    let charts = ["s-single-returning", "y"].map(chart);
    let [single, y] = [0, 1].map(|x| charts[x].to_str().expect("text"));
    let page = made(&folder, "page.html", &["playtest.csv", single, y]);
    pairs_and_runs(&mut browser, &page);
    choices(&mut browser, &page);
    keys_alone(&mut browser, &page);
    every_control_by_tab(&mut browser, &page);
    all_regions(&mut browser, &page);
    program(&mut browser, &folder);
    on_paper(&mut browser, &folder, &page);
    layers(&mut browser, &folder);
    hostile(&mut browser, &folder);
    assert_eq!(browser.console, [""; 0], "the console is empty");
}

fn pairs_and_runs(browser: &mut Browser, page: &Path) {
    browser.open(page, "r=0");
    says(browser, "#panel", "lock can go");
    browser.cell(4, 7);
    says(browser, "#panel", "never together");
    says(browser, "#panel", "rule 3, one single");
    browser.cell(14, 14);
    says(browser, "#panel", "two threads may be here together");
    says(browser, "#panel", "one lock (scores)");
    let met = browser.text(".at");
    browser.key("ArrowRight");
    browser.key("ArrowRight");
    assert_ne!(browser.text(".at"), met);
    browser.key("m");
    assert_eq!(browser.text(".at"), met);
    browser.key("Home");
    says(browser, ".at", "step 0 of");
    browser.key("End");
    says(browser, ".say", "the run is finished");
    browser.click(".row[data-i=\"23\"]");
    says(browser, "#panel", "another thread may be at");
    browser.key("Escape");
    browser.click("[data-pair]");
    says(browser, "#panel", "a run that shows it");
}

fn choices(browser: &mut Browser, page: &Path) {
    browser.open(page, "r=0");
    browser.click("#find");
    browser.type_text("playtest.c:79");
    says(browser, "#found", "node 14");
    browser.open(page, "r=1&c=2,2");
    says(browser, "#panel", "which returns");
    browser.open(page, "r=2");
    browser.click("#size button:nth-child(3)");
    assert_eq!(
        browser.script(
            "document.querySelector('#size button:nth-child(3)').getAttribute('aria-pressed')"
        ),
        "true"
    );
    let theme = "document.documentElement.dataset.theme";
    let before = browser.script(theme);
    browser.click("#theme");
    assert_ne!(browser.script(theme), before);
    browser.script("(() => { const e = document.getElementById('region'); e.value = '0,1'; e.dispatchEvent(new Event('change')); return ''; })()");
    says(browser, "#panel", "region of the parallel at node");
    browser.click("#zoom button:nth-child(2)");
    assert!(browser.script("location.hash").contains("w=1"));
}

fn keys_alone(browser: &mut Browser, page: &Path) {
    browser.open(page, "r=0");
    browser.key("Escape");
    browser.key("ArrowDown");
    browser.key("ArrowRight");
    browser.key("Enter");
    says(browser, "#panel", "node 1, plain");
    browser.key("Escape");
    browser.key("n");
    says(browser, "#panel", "node 1, plain");
    browser.key("/");
    assert_eq!(browser.script("document.activeElement.id"), "find");
}

/// Goes by the Tab key over all that can be come to, and gives what each calls itself.
fn tabbed(browser: &mut Browser) -> Vec<String> {
    let called = "(() => { const e = document.activeElement; return e === document.body ? '' : (e.id || Object.keys(e.dataset).join() + ' ' + e.textContent.trim().slice(0, 40)); })()";
    browser.script("(document.activeElement.blur(), '')");
    let mut found = Vec::new();
    for _ in 0..120 {
        browser.key("Tab");
        let name = browser.script(called);
        if name.is_empty() || found.first() == Some(&name) {
            break;
        }
        found.push(name);
    }
    found
}

/// No mouse: Tab comes to every control, Enter presses it.
fn every_control_by_tab(browser: &mut Browser, page: &Path) {
    browser.open(page, "r=0");
    let found = tabbed(browser);
    let wanted = [
        "region",
        "s any",
        "s 1",
        "find",
        "w fit",
        "w wide",
        "theme",
        "board",
        "csv sheet as CSV",
        "go 3",
        "pair nodes 14 and 14",
    ];
    for name in wanted {
        assert!(found.iter().any(|x| x == name), "{name} in {found:?}");
    }
    browser.open(page, "r=0&c=14,17");
    let found = tabbed(browser);
    for name in ["home ", "step ", "by ", "meet ", "play "] {
        assert!(
            found.iter().any(|x| x.starts_with(name)),
            "{name} in {found:?}"
        );
    }
    browser.script("(document.querySelector('[data-by=\"1\"]').focus(), '')");
    let before = browser.text(".at");
    browser.key("Enter");
    assert_ne!(browser.text(".at"), before);
}

/// Several regions: a list of them first, a search over all, and the way there and back by keys.
fn all_regions(browser: &mut Browser, page: &Path) {
    browser.open(page, "");
    says(browser, "#all", "3 regions");
    let found = tabbed(browser);
    assert!(
        found.iter().any(|x| x == "region playtest.csv"),
        "{found:?}"
    );
    browser.key("/");
    browser.type_text("playtest.c:79");
    says(browser, "#all", "1 of 3 regions");
    browser.script("(document.querySelector('[data-node]').focus(), '')");
    browser.key("Enter");
    says(browser, "#panel", "node 14, plain");
    browser.key("Escape");
    browser.key("Escape");
    says(browser, "#all", "1 of 3 regions");
    browser.open(page, "r=1");
    browser.key("/");
    browser.type_text("single");
    says(browser, "#found", "in 1 other region");
    browser.click("[data-others]");
    says(browser, "#all", "2 of 3 regions");
    browser.open(page, "r=all&q=no-such-text");
    says(browser, "#all", "0 of 3 regions");
}

/// The directory of a compiled program.
fn program(browser: &mut Browser, folder: &Path) {
    let tables = folder.join("tables");
    let tables = tables.to_str().expect("text");
    good(&["regions", &flow("locks1.c"), &flow("h5.c"), "-o", tables]);
    let page = made(folder, "program.html", &[tables]);
    browser.open(&page, "");
    says(browser, "#all", "4 regions");
    says(browser, "#all", "5 can go, 2 needed, 1 not known");
    says(browser, "#panel", "where the program obeys openmp");
    says(browser, "#panel", "? not known");
    browser.click("[data-region=\"1,0\"]");
    says(browser, "#panel", "no answer: hand/h5.c");
}

/// On paper: light whatever the theme, every cell once, and each block on one sheet of A4 across.
fn on_paper(browser: &mut Browser, folder: &Path, page: &Path) {
    let rows = (1..191).map(|x| format!("{x},plain,,,{},a.c:{x}\n", x + 1));
    let rows: String = rows.collect();
    let largest =
        format!("node,kind,construct,inside,next,where\n0,barrier,,,1,\n{rows}191,barrier,,,,\n");
    let largest = file(folder, "largest.csv", largest);
    let largest = made(folder, "largest.html", &[&largest]);
    for (page, hash) in [
        (page, "r=0&theme=dark&c=14,17"),
        (page, "r=1&theme=light"),
        (&largest, "theme=dark"),
    ] {
        browser.open(page, hash);
        let theme = "document.documentElement.dataset.theme";
        let before = browser.script(theme);
        browser.call("Emulation.setEmulatedMedia", r#"{"media":"print"}"#);
        browser.script("(dispatchEvent(new Event('beforeprint')), '')");
        assert_eq!(browser.script(theme), "light");
        let n = "document.querySelectorAll('#rows .row').length";
        let sheets = "[...document.querySelectorAll('.block .line:last-child canvas')]";
        // A4 across has 1046 by 718 pixels within its margins
        let fits = "[...document.querySelectorAll('.block')].every(x => x.offsetHeight <= 718 && [...x.querySelectorAll('.line')].every(y => [...y.children].reduce((w, z) => w + z.offsetWidth, 0) <= 1046))";
        assert_eq!(browser.script(&format!("String({fits})")), "true", "{hash}");
        let area = format!("(() => {{ const m = document.getElementById('mat'), all = {sheets}.reduce((x, y) => x + parseFloat(y.style.width) * parseFloat(y.style.height), 0), one = parseFloat(m.style.width) * parseFloat(m.style.height); return String(Math.abs(all / one - 1) < .02 && {n} > 4); }})()");
        assert_eq!(browser.script(&area), "true", "every cell once, {hash}");
        says(browser, "#what", "outermost region, teams of any size");
        browser.script("(dispatchEvent(new Event('afterprint')), '')");
        browser.call("Emulation.setEmulatedMedia", r#"{"media":""}"#);
        assert_eq!(browser.script(theme), before);
        assert_eq!(
            browser.script("String(document.getElementById('paper').children.length)"),
            "0"
        );
    }
}

/// Nevers that were lost, and a recorded run.
fn layers(browser: &mut Browser, folder: &Path) {
    let old = fs::read_to_string(example().join("playtest.csv")).expect("the table");
    let new = old
        .replace("playtest.c:73 implied by single", "playtest.c:73")
        .replace("10,barrier", "10,plain");
    let new = file(folder, "new.csv", new);
    let trace = file(folder, "run.trace", "0 1\n1 1\n0 2\n");
    let page = folder.join("layers.html");
    let out = page.to_str().expect("text");
    let accesses = file(folder, "accesses", "write 12 order\nread 17 order\n");
    let layers = ["--compare", "--trace", &trace, "--accesses", &accesses];
    let words = [&["page", "playtest.csv", &new][..], &layers, &["-o", out]].concat();
    assert_eq!(told(&words).0, 0);
    browser.open(&page, "");
    says(browser, "#panel", "nevers lost: 81");
    browser.click("[data-pair]");
    says(browser, "#panel", "a never was lost: before it was 1");
    browser.cell(12, 17);
    says(browser, "#panel", "a data race on order");
    browser.key("Escape");
    browser.click("[data-recorded]");
    browser.key("ArrowRight");
    says(browser, ".at", "step 1 of 2");
    browser.click("#zoom [data-w=\"1\"]");
    says(browser, ".at", "step 1 of 2");
    let hash = browser.script("location.hash.slice(1)");
    browser.open(&page, &hash);
    says(browser, ".at", "step 1 of 2");
    browser.cell(1, 2);
    says(browser, "#panel", "the recorded run met this pair");
}

/// Texts that try to be code are shown, in every panel.
fn hostile(browser: &mut Browser, folder: &Path) {
    let place = "x.c:1 </script><img src=x onerror=window.hit=1>";
    let table = format!(
        "node,kind,construct,inside,next,where\n0,barrier,,,1,{place}\n1,single,0,,2,{place}\n2,plain,,0,3,{place}\n3,end,0,,4,\n4,barrier,,,,\n"
    );
    let table = file(folder, "<img src=x onerror=window.hit=1>.csv", table);
    let page = made(folder, "hostile.html", &[&table]);
    for hash in [
        "",
        "c=2,2",
        "n=2",
        "q=%3Cimg",
        "c=2,99",
        "c=x",
        "r=9&g=7&s=%",
    ] {
        browser.open(&page, hash);
        let harm = "document.querySelectorAll('img').length + ' ' + window.hit";
        assert_eq!(browser.script(harm), "0 undefined", "{hash}");
    }
}
