use line_check::tested_lines::{tested_line, tested_lines};
use line_check::{Inequality, Line, Tested};
use plan_swaps::swap;
use table_maker::{Part, TableTask, narrow_lines, set_cuts, table_lines};

/// A packing program in floating point: the greatest gain of columns, none of whose rows passes its bound. Answers the amounts of the
/// columns and the prices of the rows.
fn packed(bounds: &[f64], gains: &[f64], columns: &[std::vec::Vec<(usize, f64)>]) -> (std::vec::Vec<f64>, std::vec::Vec<f64>) {
    let (rows, count) = (bounds.len(), columns.len());
    let width = count + rows + 1;
    let mut table = vec![0.0; (rows + 1) * width];
    for (c, column) in columns.iter().enumerate() {
        for (r, value) in column {
            table[r * width + c] = *value;
        }
        table[rows * width + c] = -gains[c];
    }
    for r in 0..rows {
        table[r * width + count + r] = 1.0;
        table[r * width + width - 1] = bounds[r] * (1.0 + 1e-9 * (r % 97) as f64);
    }
    let mut basis: std::vec::Vec<usize> = (count..count + rows).collect();
    for _ in 0..20_000 {
        let last = &table[rows * width..];
        let entering = (0..width - 1).min_by(|a, b| last[*a].total_cmp(&last[*b])).unwrap();
        if last[entering] > -1e-9 {
            break;
        }
        let mut leaving = None;
        let mut least = f64::INFINITY;
        for r in 0..rows {
            let value = table[r * width + entering];
            if value > 1e-9 {
                let ratio = table[r * width + width - 1] / value;
                if ratio < least {
                    least = ratio;
                    leaving = Some(r);
                }
            }
        }
        let leaving = leaving.expect("the program has no bound");
        basis[leaving] = entering;
        let pivot = table[leaving * width + entering];
        let row: std::vec::Vec<f64> = table[leaving * width..(leaving + 1) * width].iter().map(|v| v / pivot).collect();
        for r in 0..rows + 1 {
            let by = table[r * width + entering];
            if r != leaving && by != 0.0 {
                for c in 0..width {
                    table[r * width + c] -= by * row[c];
                }
            }
        }
        table[leaving * width..(leaving + 1) * width].copy_from_slice(&row);
    }
    let mut amounts = vec![0.0; count];
    for r in 0..rows {
        if basis[r] < count {
            amounts[basis[r]] = table[r * width + width - 1];
        }
    }
    let prices = (0..rows).map(|r| table[rows * width + count + r].max(0.0)).collect();
    (amounts, prices)
}

/// The modules of all links, by link and place.
fn modules_of(net: &Network) -> std::vec::Vec<(usize, usize)> {
    let links = net.links.items();
    (0..links.len()).flat_map(|e| (0..links[e].modules.len()).map(move |m| (e, m))).collect()
}

/// The coefficients of a line over its right side, capped at 1, where its modules have to give something.
fn column(modules: &[(usize, usize)], line: &Inequality) -> Option<std::vec::Vec<(usize, f64)>> {
    let need = line.right.saturating_sub(line.given);
    if need == 0 {
        return None;
    }
    let parts = |(r, (e, m)): (usize, &(usize, usize))| (r, line.coefs.items()[*e].items()[*m].min(need) as f64 / need as f64);
    Some(modules.iter().enumerate().map(parts).filter(|(_, part)| *part > 0.0).collect())
}

/// The denominator of points.
const DEN: u128 = 1 << 30;

/// The value of all lines that hold, over any counts, and the point at which it is reached.
fn solved(net: &Network, tested: &[Tested]) -> (f64, List<Part>) {
    let modules = modules_of(net);
    let links = net.links.items();
    let costs: std::vec::Vec<f64> = modules.iter().map(|(e, m)| links[*e].modules.items()[*m].cost as f64).collect();
    let columns: std::vec::Vec<_> = tested.iter().filter_map(|t| column(&modules, &t.line)).collect();
    let gains = vec![1.0; columns.len()];
    let (amounts, prices) = packed(&costs, &gains, &columns);
    let part = |((e, m), x): (&(usize, usize), &f64)| Part { link: *e, module: *m, parts: (x * DEN as f64).ceil() as u128 };
    let point = modules.iter().zip(&prices).map(part).collect::<std::vec::Vec<_>>();
    (amounts.iter().sum(), List::from_vec(point))
}

/// The lines of a program in the form that other solvers read, over whole counts.
fn printed(net: &Network, tested: &[Tested]) -> String {
    let modules = modules_of(net);
    let links = net.links.items();
    let mut text = "Minimize\n obj: ".to_string();
    let cost = |(e, m): &(usize, usize)| format!("{} x_{e}_{m}", links[*e].modules.items()[*m].cost / 1000);
    text += &modules.iter().map(cost).collect::<std::vec::Vec<_>>().join("\n + ");
    text += "\nSubject To\n";
    for t in tested {
        let need = t.line.right.saturating_sub(t.line.given);
        if need > 0 {
            let of = |e: usize, m: usize| t.line.coefs.items()[e].items()[m].min(need);
            let common = modules.iter().fold(need, |g, (e, m)| gcd(g, of(*e, *m)));
            let term = |(e, m): &(usize, usize)| format!("{} x_{e}_{m}", of(*e, *m) / common);
            let terms: std::vec::Vec<_> = modules.iter().filter(|(e, m)| of(*e, *m) > 0).map(term).collect();
            text += &format!(" {} >= {}\n", terms.join("\n + "), need / common);
        }
    }
    text += "General\n";
    for (e, m) in &modules {
        text += &format!(" x_{e}_{m}\n");
    }
    text + "End\n"
}

/// Puts lines last, and tells how many.
fn push_all(instance: &Instance, tested: &mut List<Tested>, lines: List<Line>) -> usize {
    for line in lines.items() {
        let test = tested_line(Global, instance, tested.items(), line).unwrap();
        assert!(test.sound);
        tested.push(test).ok();
    }
    lines.len()
}

/// The value of cuts, and with table lines over them, at the root: how many lines, in how many rounds.
fn measured(instance: &Instance, cuts: &[CutLine], most_weight: u32) -> (List<Tested>, f64, f64, usize, usize) {
    let none = List::new(Global);
    let mut tested = tested_lines(Global, instance, cuts, none.items()).unwrap();
    let (before, _) = solved(instance.net, tested.items());
    let narrow = narrow_lines(Global, instance, tested.items()).unwrap();
    push_all(instance, &mut tested, narrow);
    let (first, mut made, mut rounds) = (tested.len(), 0, 0);
    loop {
        let (value, point) = solved(instance.net, tested.items());
        let task = TableTask { instance, tested: &tested.items()[..first], point: point.items(), den: DEN, most_weight };
        let lines = table_lines(Global, &task, 40).unwrap();
        rounds += 1;
        let found = push_all(instance, &mut tested, lines);
        if found == 0 {
            return (tested, before, value, made, rounds);
        }
        made += found;
    }
}

fn main() {
    let words: std::vec::Vec<String> = std::env::args().skip(1).collect();
    let (path, out) = (&words[0], &words[1]);
    let (net, demands) = read(&std::fs::read_to_string(path).unwrap());
    let states = States { links: net.links.len() as u32 };
    let instance = Instance { net: &net, states: &states, demands: &demands };
    let (plan, handed) = planned(&instance);
    let (first, bound) = (plan.cost, plan.bound);
    let better = swap(Global, &instance, plan).unwrap();
    println!("{out} links {} modules {} plan {first} bound {bound} cost {}", net.links.len(), modules_of(&net).len(), better.cost);
    let mut all = handed.clone();
    for cut in set_cuts(Global, &instance, handed.items()).unwrap().items() {
        all.push(cut.clone()).ok();
    }
    for (name, cuts) in [("handed-in", handed.items()), ("all", all.items())] {
        for most_weight in [20, 100, 1000] {
            let start = clock();
            let (tested, before, value, made, rounds) = measured(&instance, cuts, most_weight);
            let ms = (clock() - start) as f64 / 1e3;
            println!("{name} cuts {} value {before:.0} weights {most_weight} value {value:.0} lines {made} rounds {rounds} ms {ms:.0}", cuts.len());
            if cuts.len() == all.len() && most_weight == 1000 {
                std::fs::write(format!("{out}.cuts.lp"), printed(&net, &tested.items()[..cuts.len()])).unwrap();
                std::fs::write(format!("{out}.tables.lp"), printed(&net, tested.items())).unwrap();
            }
        }
    }
}
