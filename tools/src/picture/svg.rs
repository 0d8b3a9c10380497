//! SVG, an element a line.

use std::fmt::Display;

/// Elements, one behind the other.
#[derive(Default)]
pub struct Svg(pub String);

impl Svg {
    pub fn push(&mut self, element: impl Display) {
        self.0 += &format!("{element}\n");
    }

    /// Elements of one kind, moved to their place.
    pub fn group(&mut self, class: &str, (x, y): (usize, usize), within: &Svg) {
        self.push(format_args!(
            r#"<g class="{class}" transform="translate({x} {y})">"#
        ));
        self.0 += &within.0;
        self.push("</g>");
    }

    pub fn text(&mut self, class: &str, (x, y): (impl Display, impl Display), words: impl Display) {
        self.push(format_args!(
            r#"<text class="{class}" x="{x}" y="{y}">{words}</text>"#
        ));
    }

    /// A mark of the definitions at this x.
    pub fn mark(&mut self, id: impl Display, x: usize) {
        self.push(format_args!(r##"<use href="#{id}" x="{x}"/>"##));
    }
}

/// Letters are 5/9 of their size wide or less, which the widths of texts rely on.
const STYLE: &str = "<style>
text { font-family: sans-serif; font-size: 12px; fill: #000 }
.title { font-size: 15px; font-weight: bold }
.tick, .lane, .count { font-size: 9px }
.name, .lane { text-anchor: end }
.digit, .small, .middle { text-anchor: middle }
.digit { font-weight: bold }
.small { font-size: 9px }
.count { paint-order: stroke; stroke: #fff; stroke-width: 3px }
.flag { fill: #fff; font-size: 8px; font-weight: bold; text-anchor: middle }
.box { stroke: #555; stroke-width: 0.7 }
.due { fill: #fff; stroke: #555; stroke-width: 0.7 }
.unspent { fill: none; stroke: #777; stroke-width: 0.7; stroke-dasharray: 2 2 }
.guide { stroke: #e3e3e3; stroke-width: 1 }
.floor { stroke: #999; stroke-width: 0.7 }
.period { stroke: #000; stroke-width: 1.6 }
.job { fill: none; stroke: #1a4f8b; stroke-width: 1.1 }
.head { fill: #1a4f8b }
</style>";

pub fn document(
    (width, height): (usize, usize),
    title: &str,
    definitions: &Svg,
    body: &Svg,
) -> String {
    let mut svg = Svg::default();
    svg.push(format_args!(
        r#"<svg xmlns="http://www.w3.org/2000/svg" width="{width}" height="{height}" viewBox="0 0 {width} {height}">"#
    ));
    svg.push(format_args!("<title>{title}</title>"));
    svg.push(STYLE);
    svg.push("<defs>");
    svg.0 += &definitions.0;
    svg.push("</defs>");
    svg.push(format_args!(
        r##"<rect width="{width}" height="{height}" fill="#fff"/>"##
    ));
    svg.text("title", (16, 24), title);
    svg.0 += &body.0;
    svg.push("</svg>");
    svg.0
}
