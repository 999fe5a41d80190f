//! The table as a page that stands by itself: style and script are in it, and its security policy allows nothing else.
//! Without the script all of it is shown and only the filter is missing.

mod paper;
mod refusal;
mod sheet;

use super::View;
use crate::calls::Refusal;
use crate::shell::{escaped, Source};

const STYLE: &str = include_str!("html/page.css");
const SCRIPT: &str = include_str!("html/page.js");
/// The script's SHA-256, by which the page's security policy knows it.
const SCRIPT_HASH: &str = "sha256-/A+DBbN9kP7HWpOfHwsGKUcClkN1a+P9WqhMo+WQEN4=";

/// The page of an accepted policy.
pub fn table(view: &View) -> String {
    let paper = paper::of(view);
    let page = Page {
        title: format!("{}: {}", sheet::title(view), name(&view.file)),
        style: format!("{STYLE}{}", paper.style()),
        script: Some(SCRIPT),
        body: sheet::body(view, &paper),
    };
    page.text()
}

/// The page of a refused one.
pub fn refused(source: &Source, refusal: Refusal) -> String {
    let file = name(&super::file_name(source));
    let page = Page {
        title: format!("Refused: {file}"),
        style: STYLE.into(),
        script: None,
        body: refusal::body(&file, source, refusal),
    };
    page.text()
}

/// The parts of a page, as HTML.
struct Page {
    title: String,
    style: String,
    script: Option<&'static str>,
    body: String,
}

impl Page {
    fn text(&self) -> String {
        let scripts = if self.script.is_some() { format!("'{SCRIPT_HASH}'") } else { "'none'".into() };
        let script = self.script.map_or(String::new(), |script| format!("<script>{script}</script>\n"));
        format!(
            "<!DOCTYPE html>\n<html lang=\"en\">\n<head>\n<meta charset=\"utf-8\">\n\
             <meta http-equiv=\"Content-Security-Policy\" content=\"default-src 'none'; style-src 'unsafe-inline'; \
             script-src {scripts}; base-uri 'none'; form-action 'none'\">\n\
             <meta name=\"viewport\" content=\"width=device-width, initial-scale=1\">\n\
             <meta name=\"color-scheme\" content=\"light dark\">\n\
             <title>{}</title>\n<style>\n{}</style>\n</head>\n<body>\n<main>\n{}</main>\n{script}</body>\n</html>",
            self.title, self.style, self.body
        )
    }
}

/// Text within the page.
fn html(text: &str) -> String {
    text.replace('&', "&amp;").replace('<', "&lt;").replace('>', "&gt;").replace('"', "&quot;")
}

/// A file's name within the page: letters of any script, but nothing that cannot be seen.
fn name(file: &str) -> String {
    let seen = |c: char| {
        if c.is_alphanumeric() {
            c.to_string()
        } else {
            escaped(c.to_string().as_bytes())
        }
    };
    html(&file.chars().map(seen).collect::<String>())
}
