//! The growth of a value diagram step by step, as a plot in SVG.

/// Rows after the backup and rows left after the cuts, for each step.
pub struct Growth {
    pub step: u64,
    pub rows: usize,
    pub left: usize,
}

const WIDTH: f64 = 640.0;
const HEIGHT: f64 = 280.0;
const LEFT: f64 = 64.0;
const RIGHT: f64 = 20.0;
const TOP: f64 = 40.0;
const BOTTOM: f64 = 46.0;

const STYLE: &str = "\
.yp text{font-family:Helvetica,Arial,sans-serif;font-size:12px;fill:#1c1c1c}.yp .grid{stroke:#dde3ea}.yp .axis{stroke:#5a6570}\
.yp .rows{fill:#9bbce0}.yp .left{fill:#1f5fa8}.yp .middle{text-anchor:middle}.yp .end{text-anchor:end}";

/// Two bars for each step.
pub fn plot(steps: &[Growth]) -> String {
    let most = steps.iter().map(|step| step.rows.max(step.left)).max().unwrap_or(1).max(1);
    let mark = mark_for(most);
    let top = most.div_ceil(mark) * mark;
    let y = |rows: usize| HEIGHT - BOTTOM - rows as f64 / top as f64 * (HEIGHT - TOP - BOTTOM);
    let size = format!("width=\"{WIDTH}\" height=\"{HEIGHT}\" viewBox=\"0 0 {WIDTH} {HEIGHT}\"");
    let mut text = format!("<svg xmlns=\"http://www.w3.org/2000/svg\" class=\"yp\" role=\"img\" {size}>\n");
    text += &format!("<title>Rows of the value diagram by step</title>\n<style>{STYLE}</style>\n");
    for rows in (0..=top).step_by(mark) {
        let at = y(rows);
        text += &format!(
            "<path class=\"grid\" d=\"M{LEFT} {at:.1}H{:.1}\"/><text class=\"end\" x=\"{:.1}\" y=\"{:.1}\">{rows}</text>\n",
            WIDTH - RIGHT,
            LEFT - 8.0,
            at + 4.0
        );
    }
    let room = (WIDTH - LEFT - RIGHT) / steps.len().max(1) as f64;
    for (i, step) in steps.iter().enumerate() {
        text += &bars(step, LEFT + (i as f64 + 0.5) * room, room.min(120.0) * 0.34, &y);
    }
    text += &format!("<path class=\"axis\" d=\"M{LEFT} {0:.1}H{1:.1}\"/>\n", HEIGHT - BOTTOM, WIDTH - RIGHT);
    text + &legend() + "</svg>\n"
}

/// A distance between grid lines that is 1, 2 or 5 times a power of ten and gives at most six of them.
fn mark_for(most: usize) -> usize {
    let mut power = 1;
    loop {
        for factor in [1, 2, 5] {
            if most.div_ceil(factor * power) <= 6 {
                return factor * power;
            }
        }
        power *= 10;
    }
}

fn bars(step: &Growth, middle: f64, width: f64, y: &impl Fn(usize) -> f64) -> String {
    let bar = |class: &str, rows: usize, left: f64| {
        let top = y(rows);
        let number = format!("<text class=\"middle\" x=\"{:.1}\" y=\"{:.1}\">{rows}</text>", left + width / 2.0, top - 4.0);
        format!(
            "<rect class=\"{class}\" x=\"{left:.1}\" y=\"{top:.1}\" width=\"{width:.1}\" height=\"{:.1}\"/>{number}",
            HEIGHT - BOTTOM - top
        )
    };
    let name = format!("<text class=\"middle\" x=\"{middle:.1}\" y=\"{:.1}\">step {}</text>\n", HEIGHT - BOTTOM + 18.0, step.step);
    bar("rows", step.rows, middle - width - 1.0) + &bar("left", step.left, middle + 1.0) + &name
}

fn legend() -> String {
    let item = |class: &str, x: f64, text: &str| {
        format!("<rect class=\"{class}\" x=\"{x}\" y=\"10\" width=\"12\" height=\"12\"/><text x=\"{}\" y=\"20\">{text}</text>", x + 18.0)
    };
    item("rows", LEFT, "rows after the backup") + &item("left", LEFT + 180.0, "rows left after the cuts") + "\n"
}

#[cfg(test)]
mod tests {
    use super::mark_for;

    #[test]
    fn grid_lines() {
        assert_eq!([1, 6, 7, 19, 540, 1024].map(mark_for), [1, 1, 2, 5, 100, 200]);
    }
}
