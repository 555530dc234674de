//! The plot: how times grow, those of checks and interning with the number of sorts, and the ratios of all rows.

use common::clock::median;
use common::times::Times;

use crate::sections::Growth;
use crate::sections::Row;
use crate::sections::Table;
use crate::series::Before;
use crate::series::Points;
use crate::series::Series;

const WIDTH: f64 = 960.0;
const PANEL: f64 = 240.0;
const PANEL_HEIGHT: f64 = 200.0;
const LEFT: f64 = 56.0;
const TOP: f64 = 64.0;
const BAR: f64 = 15.0;

/// What is above and below the panels of a row.
const AROUND_PANELS: f64 = 96.0;

/// Name, colour and value of a line.
const LINES: [(&str, &str, fn(&Times) -> f64); 3] = [
    ("port", "#c0392b", |times| times.port),
    ("Rust", "#2471a3", |times| times.merc),
    ("Rust, list put in", "#7d8c94", Times::loaded),
];

/// The name of the line of the libraries that had no index, and its colour.
const BEFORE: (&str, &str) = ("port before C-14", "#e59866");

/// A line of a panel.
struct Line {
    colour: &'static str,
    /// Sizes and values.
    points: Vec<(f64, f64)>,
}

pub fn plot(
    tables: &[Table],
    growth: &[Growth],
    series: &[Series],
    before: Option<&Before>,
) -> String {
    let sorts_at = TOP + PANEL_HEIGHT + AROUND_PANELS + 16.0;
    let bars_at = sorts_at + PANEL_HEIGHT + AROUND_PANELS;
    let bars: usize = tables.iter().map(|table| table.rows.len() + 1).sum();
    let height = bars_at + BAR * bars as f64 + 40.0;
    let mut svg = format!(
        "<svg xmlns=\"http://www.w3.org/2000/svg\" width=\"{WIDTH}\" height=\"{height}\" viewBox=\"0 0 {WIDTH} {height}\" \
         font-family=\"sans-serif\" font-size=\"11\" fill=\"#222\">\n<rect width=\"100%\" height=\"100%\" fill=\"white\"/>\n"
    );
    let named = LINES.map(|(name, colour, _)| (name, colour));
    svg += &heading(
        "Time of a call as one thing grows. 1 is the Rust with the list put in, at the smallest size",
        &named,
        TOP,
    );
    for (index, growth) in growth.iter().enumerate() {
        svg += &panel(growth.name, &lines_of(growth), at_column(index), TOP);
    }
    let [port, rust, put_in] = named;
    svg += &heading(
        "Nanoseconds as the number of sorts grows",
        &[port, BEFORE, rust, put_in],
        sorts_at,
    );
    for (index, series) in series.iter().enumerate() {
        let name = format!("sorts: {}", series.what.name);
        svg += &panel(
            &name,
            &lines_of_series(series, before),
            at_column(index),
            sorts_at,
        );
    }
    svg += &bars_of(tables, bars_at);
    svg + "</svg>\n"
}

/// What a row of panels shows, and the colours of its lines.
fn heading(what: &str, names: &[(&str, &str)], top: f64) -> String {
    let mut svg = text(LEFT, top - 44.0, "start", what);
    for (index, (name, colour)) in names.iter().enumerate() {
        let x = LEFT + 150.0 * index as f64;
        svg += &line(x, top - 28.0, x + 24.0, top - 28.0, colour, 2.0);
        svg += &text(x + 30.0, top - 24.0, "start", name);
    }
    svg
}

fn at_column(index: usize) -> f64 {
    LEFT + (PANEL + 64.0) * index as f64
}

/// The times of a row over that of the Rust with the list put in, at the smallest size.
fn lines_of(growth: &Growth) -> Vec<Line> {
    let unit = growth
        .sizes
        .first()
        .map_or(1.0, |(_, row)| median_of(row, Times::loaded));
    let line = |(_, colour, value): (&str, &'static str, fn(&Times) -> f64)| Line {
        colour,
        points: growth
            .sizes
            .iter()
            .map(|(size, row)| (*size as f64, median_of(row, value) / unit))
            .collect(),
    };
    LINES.map(line).into()
}

fn lines_of_series(series: &Series, before: Option<&Before>) -> Vec<Line> {
    let line = |colour, points: Points| Line {
        colour,
        points: points
            .into_iter()
            .map(|(sorts, time)| (sorts as f64, time))
            .collect(),
    };
    let rust = LINES[if series.what.put_in { 2 } else { 1 }].1;
    let before = before.map(|before| line(BEFORE.1, before.of(series.what)));
    [
        line(LINES[0].1, series.port.clone()),
        line(rust, series.rust.clone()),
    ]
    .into_iter()
    .chain(before)
    .collect()
}

fn text(x: f64, y: f64, anchor: &str, text: &str) -> String {
    format!("<text x=\"{x:.1}\" y=\"{y:.1}\" text-anchor=\"{anchor}\">{text}</text>\n")
}

fn line(x1: f64, y1: f64, x2: f64, y2: f64, colour: &str, width: f64) -> String {
    format!(
        "<line x1=\"{x1:.1}\" y1=\"{y1:.1}\" x2=\"{x2:.1}\" y2=\"{y2:.1}\" stroke=\"{colour}\" stroke-width=\"{width}\"/>\n"
    )
}

fn median_of(row: &Row, value: fn(&Times) -> f64) -> f64 {
    median(row.times.iter().map(value).collect())
}

/// A logarithmic scale from whole powers of ten around its values to a length.
struct Scale {
    low: i32,
    high: i32,
    length: f64,
}

impl Scale {
    fn around(values: impl Iterator<Item = f64> + Clone, length: f64) -> Scale {
        let least = values.clone().fold(f64::MAX, f64::min).log10().floor() as i32;
        let most = values.fold(f64::MIN, f64::max).log10().ceil() as i32;
        Scale {
            low: least,
            high: most.max(least + 1),
            length,
        }
    }

    fn at(&self, value: f64) -> f64 {
        (value.log10() - f64::from(self.low)) / f64::from(self.high - self.low) * self.length
    }

    fn powers(&self) -> impl Iterator<Item = f64> {
        (self.low..=self.high).map(|power| 10f64.powi(power))
    }
}

/// A size is named where its name does not run into that of the next larger one.
const NAME_WIDTH: f64 = 26.0;

fn panel(name: &str, lines: &[Line], left: f64, top: f64) -> String {
    let points = || {
        let points = lines.iter().flat_map(|line| &line.points);
        points.copied().filter(|(_, value)| *value > 0.0)
    };
    let mut sizes: Vec<f64> = points().map(|(size, _)| size).collect();
    sizes.sort_unstable_by(f64::total_cmp);
    sizes.dedup();
    let (Some(&first), Some(&last)) = (sizes.first(), sizes.last()) else {
        return String::new();
    };
    let bottom = top + PANEL_HEIGHT;
    let x = |size: f64| left + (size / first).ln() / (last / first).ln() * PANEL;
    let scale = Scale::around(points().map(|(_, value)| value), PANEL_HEIGHT);
    let y = |value: f64| bottom - scale.at(value);
    let mut svg = String::new();
    for power in scale.powers() {
        svg += &line(left, y(power), left + PANEL, y(power), "#ddd", 1.0);
        svg += &text(left - 6.0, y(power) + 4.0, "end", &power.to_string());
    }
    let mut free = f64::MAX;
    for &size in sizes.iter().rev() {
        svg += &line(x(size), bottom, x(size), bottom + 4.0, "#222", 1.0);
        if x(size) <= free {
            svg += &text(x(size), bottom + 17.0, "middle", &size.to_string());
            free = x(size) - NAME_WIDTH;
        }
    }
    svg += &text(left + PANEL / 2.0, bottom + 34.0, "middle", name);
    for Line { colour, points } in lines {
        let points: Vec<(f64, f64)> = points
            .iter()
            .filter(|(_, value)| *value > 0.0)
            .copied()
            .collect();
        let path: Vec<String> = points
            .iter()
            .map(|&(size, value)| format!("{:.1},{:.1}", x(size), y(value)))
            .collect();
        svg += &format!(
            "<polyline points=\"{}\" fill=\"none\" stroke=\"{colour}\" stroke-width=\"2\"/>\n",
            path.join(" ")
        );
        for (size, value) in points {
            svg += &format!(
                "<circle cx=\"{:.1}\" cy=\"{:.1}\" r=\"2.5\" fill=\"{colour}\"/>\n",
                x(size),
                y(value)
            );
        }
    }
    svg
}

/// A dot for port / Rust and one for the same with the list put in, by row.
fn bars_of(tables: &[Table], top: f64) -> String {
    let left = 230.0;
    let rows = || tables.iter().flat_map(|table| &table.rows);
    let ratios: [(&str, fn(&Times) -> f64); 2] = [
        (LINES[1].1, Times::ratio),
        (LINES[2].1, Times::loaded_ratio),
    ];
    let values: Vec<f64> = rows()
        .flat_map(|row| ratios.map(|(_, ratio)| median_of(row, ratio)))
        .collect();
    let scale = Scale::around(
        values
            .iter()
            .copied()
            .filter(|value| *value > 0.0)
            .chain([1.0]),
        WIDTH - left - 40.0,
    );
    let bottom = top
        + BAR
            * tables
                .iter()
                .map(|table| table.rows.len() + 1)
                .sum::<usize>() as f64;
    let mut svg = text(
        LEFT,
        top - 26.0,
        "start",
        "Time of the port over that of the Rust (blue), and over the Rust with the list put in (grey)",
    );
    for power in scale.powers() {
        let x = left + scale.at(power);
        let (colour, width) = if power == 1.0 {
            ("#222", 1.5)
        } else {
            ("#ddd", 1.0)
        };
        svg += &line(x, top - 8.0, x, bottom, colour, width);
        svg += &text(x, bottom + 14.0, "middle", &power.to_string());
    }
    let mut y = top;
    for table in tables {
        svg += &format!(
            "<g font-weight=\"bold\">{}</g>",
            text(LEFT, y + 4.0, "start", table.title)
        );
        y += BAR;
        for row in &table.rows {
            svg += &text(left - 10.0, y + 4.0, "end", &row.name);
            for (colour, ratio) in ratios {
                let value = median_of(row, ratio);
                if value > 0.0 {
                    svg += &format!(
                        "<circle cx=\"{:.1}\" cy=\"{y:.1}\" r=\"4\" fill=\"{colour}\"/>\n",
                        left + scale.at(value)
                    );
                }
            }
            y += BAR;
        }
    }
    svg
}

#[cfg(test)]
mod tests {
    use super::*;
    use crate::series;
    use crate::series::tests::of_power;

    fn lines_drawn(svg: &str, colour: &str) -> usize {
        svg.matches(&format!(
            "stroke=\"{colour}\" stroke-width=\"2\"/>\n<circle"
        ))
        .count()
    }

    /// Three panels; the filling has no line of before, and interning one point less than the nine sizes.
    #[test]
    fn the_series_are_drawn() {
        let series = of_power(1.0);
        let before = Before::read(&series::file(&of_power(2.0), "A run.")).expect("as saved");
        let drawn = plot(&[], &[], &series, Some(&before));
        let alone = plot(&[], &[], &series, None);
        assert_eq!(lines_drawn(&drawn, LINES[0].1), 3);
        assert_eq!(lines_drawn(&drawn, BEFORE.1), 2);
        assert_eq!(lines_drawn(&alone, BEFORE.1), 0);
        assert_eq!(drawn.matches("<circle").count(), (9 + 8 + 9) * 2 + 9 + 8);
        assert_eq!(drawn.matches(">port before C-14<").count(), 1);
        assert!(!drawn.contains("NaN") && !drawn.contains("inf"));
    }

    /// Of a time that grows with the number of sorts, the line goes from a corner's height to another's, both powers of ten.
    #[test]
    fn a_panel_is_logarithmic() {
        let points = vec![(1.0, 1.0), (10.0, 10.0), (100.0, 100.0), (1_000.0, -1.0)];
        let svg = panel(
            "sorts",
            &[Line {
                colour: "red",
                points,
            }],
            0.0,
            0.0,
        );
        let corners = format!("0.0,{PANEL_HEIGHT:.1} 120.0,100.0 {PANEL:.1},0.0");
        assert!(svg.contains(&corners), "{svg}");
        assert!(!svg.contains(">1000<"));
    }

    /// 700 is not named, since its name would run into that of 1,000.
    #[test]
    fn names_of_sizes_do_not_run_together() {
        let points = [6.0, 400.0, 700.0, 1_000.0].map(|size| (size, 1.0)).into();
        let svg = panel(
            "sorts",
            &[Line {
                colour: "red",
                points,
            }],
            0.0,
            0.0,
        );
        let named = [6, 400, 700, 1000].map(|size| svg.contains(&format!(">{size}<")));
        assert_eq!(named, [true, true, false, true]);
    }

    #[test]
    fn a_panel_of_nothing_is_empty() {
        assert_eq!(panel("sorts", &[], 0.0, 0.0), "");
    }
}
