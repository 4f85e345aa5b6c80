//! `mapblock report` at a terminal, and its page in a browser without a
//! screen, where that is installed.

mod common;

use std::fs;
use std::path::Path;
use std::process::Command;

use common::reserve::reserve;
use common::{blob, file, folder, pbf, run};
use generate::encode::len_field;

/// A map of the made reserve, a refused block and a blob that can't be read.
fn page(folder: &Path) -> String {
    let bad = len_field(2, &len_field(3, &[0x08, 0x07, 0x42, 0x01, 0x80]));
    let map = [pbf(&[&reserve(), &bad, b""]), blob("OSMData", &[])].concat();
    file(folder, "a<b.osm.pbf", &map);
    let run = run(folder, &["report", "a<b.osm.pbf", "-o", "report.html"]);
    assert_eq!(run.out, "report.html: written\n");
    assert_eq!((run.status, run.err.lines().count()), (2, 2), "{}", run.err);
    fs::read_to_string(folder.join("report.html")).expect("the page")
}

#[test]
fn the_page_tells_what_was_checked_and_what_came_of_it() {
    let folder = folder("report");
    let page = page(&folder);
    for words in [
        "<title>a&lt;b.osm.pbf: map report</title>",
        "A camera refuses 1 of 3 blocks, and one can't be read.",
        "<h3>Block 1 (blob at byte ",
        "The bytes end in the middle of a number, or where one is due.",
        "<b>Where:</b> group 0, way 0 (id 7), its column refs: bytes 8 to 8",
        "it has neither raw nor zlib data.",
        "<tr><th>blocks accepted</th><td>2</td></tr>",
        "<tr><th>nodes</th><td>23</td></tr>",
        "<tr><th>ways</th><td>9</td></tr>",
        "<tr><th>nodes of ways</th><td>29</td></tr>",
        "<tr><th>members of relations</th><td>3</td></tr>",
        "<td>refused with number 2: the bytes end in the middle",
        ">Ridge Path</text>",
        "name = Tom &amp; Ann&#39;s &lt;hut&gt;",
    ] {
        assert!(page.contains(words), "{words}");
    }
}

/// Nothing is fetched: no address but the name of SVG itself.
#[test]
fn the_page_has_nothing_outside_it() {
    let page = page(&folder("report-alone"));
    let addresses = page.matches("://").count();
    assert_eq!(
        addresses,
        page.matches("xmlns=\"http://www.w3.org/2000/svg\"").count()
    );
    for word in ["src=", "href=", "@import", "url("] {
        assert!(!page.contains(word), "{word}");
    }
}

#[test]
fn a_good_block_has_a_page_without_faults() {
    let folder = folder("report-good");
    file(&folder, "a.bin", &reserve());
    let run = run(&folder, &["report", "a.bin", "-o", "a.html"]);
    assert_eq!((run.status, run.err.as_str()), (0, ""));
    let page = fs::read_to_string(folder.join("a.html")).expect("the page");
    assert!(page.contains("<p class=\"verdict good\">A camera accepts the block.</p>"));
    assert!(!page.contains("What is wrong"));
}

#[test]
fn what_can_t_be_read_or_written_is_told() {
    let folder = folder("report-bad");
    file(&folder, "a.bin", b"");
    let missing = run(&folder, &["report", "no", "-o", "a.html"]);
    assert_eq!(
        (missing.status, missing.err.as_str()),
        (2, "mapblock: no: there is no such file\n")
    );
    let unwritten = run(&folder, &["report", "a.bin", "-o", "no/a.html"]);
    assert_eq!(unwritten.status, 2);
    assert!(
        unwritten
            .err
            .starts_with("mapblock: no/a.html: it can't be written: ")
    );
}

/// Does with the page what a person does, and writes down what it shows.
const PERSON: &str = r##"<script>
addEventListener("load", () => {
  const svg = document.querySelector("#drawing svg");
  const told = [];
  // To five units, since a browser rounds the pointer's place to pixels.
  const tell = () => told.push(document.querySelector("#map").getAttribute("transform")
    .replace(/-?\d+\.\d\d\b/g, (number) => 5 * Math.round(number / 5)) + " " +
    document.querySelector("#scale .words").textContent);
  const at = (x, y) => {
    const box = svg.getBoundingClientRect(), unit = box.width / svg.viewBox.baseVal.width;
    return { clientX: box.left + x * unit, clientY: box.top + y * unit, bubbles: true, cancelable: true };
  };
  const key = (name) => document.querySelector("#drawing")
    .dispatchEvent(new KeyboardEvent("keydown", { key: name, bubbles: true }));
  svg.scrollIntoView({ block: "center" });
  svg.dispatchEvent(new WheelEvent("wheel", { deltaY: -1, ...at(200, 400) }));
  tell();
  svg.dispatchEvent(new PointerEvent("pointerdown", at(200, 400)));
  svg.dispatchEvent(new PointerEvent("pointermove", at(230, 380)));
  svg.dispatchEvent(new PointerEvent("pointerup", at(230, 380)));
  tell();
  for (let times = 0; times < 9; times++) key("+");
  tell();
  key("ArrowLeft");
  key("0");
  tell();
  svg.dispatchEvent(new PointerEvent("pointermove", at(296.9, 400)));
  const tags = document.querySelector("#tags");
  told.push(tags.hidden ? "hidden" : tags.textContent);
  svg.dispatchEvent(new PointerEvent("pointermove", at(400, 400)));
  told.push(tags.hidden ? "hidden" : tags.textContent);
  document.title = told.join("; ");
});
addEventListener("error", (event) => { document.title = "error: " + event.message; });
</script>"##;

/// The page's title after the browser has run it; none where there is no
/// browser.
fn title_in_browser(folder: &Path, page: &str) -> Option<String> {
    let path = file(folder, "tried.html", page.as_bytes());
    let output = Command::new("chromium")
        .args([
            "--headless",
            "--no-sandbox",
            "--disable-gpu",
            "--window-size=1100,900",
        ])
        .arg(format!(
            "--user-data-dir={}",
            folder.join("profile").display()
        ))
        .args(["--virtual-time-budget=3000", "--dump-dom"])
        .arg(format!("file://{}", path.display()))
        .output()
        .ok()?;
    let dom = String::from_utf8_lossy(&output.stdout).to_string();
    let title = dom.split("<title>").nth(1)?.split("</title>").next()?;
    Some(title.to_string())
}

#[test]
fn the_drawing_moves_grows_and_tells_tags_in_a_browser() {
    let folder = folder("report-browser");
    let page = page(&folder).replace("</body>", &format!("{PERSON}</body>"));
    let Some(title) = title_in_browser(&folder, &page) else {
        println!("chromium is not at hand; tool/run --test installs it");
        return;
    };
    assert_eq!(
        title,
        "translate(-50 -100) scale(1.2500) 50 m; \
         translate(-20 -120) scale(1.2500) 50 m; \
         translate(-3375 -3435) scale(9.3132) 5 m; \
         translate(0 0) scale(1.0000) 50 m; \
         way 22\nbarrier = fence; hidden"
    );
}
