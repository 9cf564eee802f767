//! How a drawing looks: the nine owners by colour and hatching, kinds of spans by their borders,
//! kinds of messages by their lines.

/// An owner's colour, its light shade, and the hatching that tells it from others without colour.
struct Owner {
    dark: &'static str,
    light: &'static str,
    hatching: &'static str,
}

const fn owner(dark: &'static str, light: &'static str, hatching: &'static str) -> Owner {
    Owner { dark, light, hatching }
}

/// The hatchings are paths in a square of 8 by 8.
const OWNERS: [Owner; 9] = [
    owner("#0b5fa5", "#cfe3f5", ""),
    owner("#b3430e", "#fbe3d6", "M-2 2L2 -2M0 8L8 0M6 10L10 6"),
    owner("#1b7a3d", "#d5efdd", "M-2 6L2 10M0 0L8 8M6 -2L10 2"),
    owner("#8a3ea8", "#efdff5", "M0 2H8M0 6H8"),
    owner("#7d6000", "#f5ecc4", "M2 0V8M6 0V8"),
    owner("#00717d", "#d0eef1", "M0 0L8 8M0 8L8 0"),
    owner("#b0206a", "#f8dbe9", "M0 4H8M4 0V8"),
    owner("#5a4a3a", "#ece4dc", "M1 2h2M5 6h2"),
    owner("#3f4859", "#dfe3ea", "M0 6L2 2L4 6L6 2L8 6"),
];

const SHEET: &str = "\
.run{font:10px Arial,'Liberation Sans',Helvetica,sans-serif;background:#fff}
.run text{fill:#111}
.run .big{font-size:15px;font-weight:bold}
.run .plain{font-size:12px}
.run .place{font-size:12px;font-weight:bold}
.run .clock text{font-size:9px;fill:#444}
.run .lane-name text{font-size:12px;font-weight:bold}
.run .back{fill:#fff}
.run .tag text{font-size:9px;font-weight:bold;fill:#444}
.run .on text{paint-order:stroke;stroke:#fff;stroke-width:4px;stroke-linejoin:round}
.run .to-come text{font-size:9px}
.run .legend text{font-size:11px}
.run .refused{fill:#ebebeb}
.run .ruled{fill:url(#columns)}
.run .lane{stroke:#999;fill:none}
.run .line{stroke:#555;fill:none}
.run .waits{fill:#fff;stroke-dasharray:2 3;stroke-width:1.5}
.run .asks{stroke-dasharray:7 3;stroke-width:1.5}
.run .proposes{stroke-width:1.5}
.run .names{stroke-width:3}
.run .halo{fill:none;stroke:#fff;stroke-width:4;opacity:.7}
.run .arrows path{fill:none}
.run .k0{stroke-width:1.3}
.run .k1{stroke-width:1.3;stroke-dasharray:6 3}
.run .k2{stroke-width:1.3;stroke-dasharray:10 3 2 3}
.run .k3{stroke-width:2.6}
.run .k4{stroke-width:2.6;stroke-dasharray:6 3}
.run .k5{stroke-width:2.2;stroke-dasharray:1.5 3}
.run .k6{stroke-width:2.2;stroke-dasharray:12 3 1.5 3 1.5 3}
.run .lost{marker-end:url(#lost)}
.run .open{marker-end:url(#open)}
.run .copy{marker-start:url(#copy)}
.run .gap-end{marker-end:url(#gap)}
.run .gap-start{marker-start:url(#gap)}
.run .gaps text{font-size:9px;fill:#444}
.run .e{text-anchor:end}
.run .dot{fill:#111}
.run .restart{fill:#111}
.run .release{fill:#fff;stroke:#111;stroke-width:1.5}
.run .no rect{fill:#111}
@media print{:root.run{width:100%;height:auto}}
.run .no text{fill:#fff;font-size:10px;font-weight:bold;text-anchor:middle}
";

/// The style sheet, the hatchings and the ends of arrows, for so many hosts.
pub fn definitions(n: u8) -> String {
    let owners = &OWNERS[..usize::from(n)];
    let mut sheet = SHEET.to_string();
    let mut shapes = fixed_shapes();
    for (number, owner) in owners.iter().enumerate() {
        sheet.push_str(&owner_rules(number, owner));
        shapes.push_str(&owner_shapes(number, owner));
    }
    format!("<style>\n{}</style>\n<defs>\n{}</defs>\n", sheet, shapes)
}

/// Spans have their owner's hatching, arrows the colour of their ballot's host.
fn owner_rules(number: usize, owner: &Owner) -> String {
    format!(
        ".run .o{n}{{fill:url(#hatch{n});stroke:{dark}}}\n.run .o{n}.waits{{fill:#fff}}\n\
         .run .b{n}{{stroke:{dark}}}\n.run .b{n}.did{{marker-end:url(#did{n})}}\n\
         .run .b{n}.idle{{marker-end:url(#idle{n})}}\n",
        n = number,
        dark = owner.dark,
    )
}

fn owner_shapes(number: usize, owner: &Owner) -> String {
    let Owner { dark, light, hatching } = owner;
    format!(
        "<pattern id=\"hatch{n}\" width=\"8\" height=\"8\" patternUnits=\"userSpaceOnUse\">\
         <path d=\"M0 0H8V8H0Z\" fill=\"{light}\"/>\
         <path d=\"{hatching}\" stroke=\"{dark}\" stroke-width=\"1.2\" fill=\"none\"/></pattern>\n\
         {did}{idle}",
        n = number,
        light = light,
        dark = dark,
        hatching = hatching,
        did = arrow_head(&format!("did{}", number), dark, dark),
        idle = arrow_head(&format!("idle{}", number), "#fff", dark),
    )
}

fn arrow_head(id: &str, fill: &str, stroke: &str) -> String {
    let shape = format!(
        "<path d=\"M1 1L10 5L1 9Z\" fill=\"{}\" stroke=\"{}\" stroke-width=\"1.3\"/>",
        fill, stroke
    );
    marker(id, 10, &shape)
}

fn marker(id: &str, at: usize, shape: &str) -> String {
    format!(
        "<marker id=\"{}\" markerUnits=\"userSpaceOnUse\" markerWidth=\"11\" markerHeight=\"11\" \
         refX=\"{}\" refY=\"5\" orient=\"auto\">{}</marker>\n",
        id, at, shape
    )
}

/// The rule of the columns, and the ends of arrows that are the same for all.
fn fixed_shapes() -> String {
    use super::layout::{LEFT, STEP};
    let cross = "<path d=\"M1 1L9 9M9 1L1 9\" stroke=\"#111\" stroke-width=\"2\" fill=\"none\"/>";
    let ring = "<circle cx=\"5\" cy=\"5\" r=\"3.5\" fill=\"#fff\" stroke=\"#111\"/>";
    let diamond = "<path d=\"M5 .5L9.5 5L5 9.5L.5 5Z\" fill=\"#fff\" stroke=\"#111\"/>";
    let columns = format!(
        "<pattern id=\"columns\" x=\"{}\" width=\"{}\" height=\"8\" \
         patternUnits=\"userSpaceOnUse\"><path d=\"M.5 0V8\" stroke=\"#d4d4d4\"/></pattern>\n",
        LEFT, STEP
    );
    let strokes = "<path d=\"M3 1V9M6.5 1V9\" stroke=\"#111\" stroke-width=\"1.5\"/>";
    let ends = [("lost", cross), ("open", ring), ("copy", diamond), ("gap", strokes)];
    ends.iter().fold(columns, |shapes, (id, shape)| shapes + &marker(id, 5, shape))
}
