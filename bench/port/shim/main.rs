use circuit::CellKind;
use rowed::RowCell;
use shim::{user_time, Global, NOTES};

/// Cells, junctions, rows of nothing but buffers, rows.
pub fn counts(rows: &[aq_base::List<RowCell>]) -> (u64, u64, u64, u64) {
    let (mut cells, mut jj, mut bare) = (0, 0, 0);
    for row in rows {
        cells += row.len() as u64;
        for cell in row.as_slice() {
            jj += if matches!(cell.kind, CellKind::Majority) {
                6
            } else {
                2
            };
        }
        if row
            .as_slice()
            .iter()
            .all(|cell| matches!(cell.kind, CellKind::Buffer))
        {
            bare += 1;
        }
    }
    (cells, jj, bare, rows.len() as u64)
}

/// Makes the graph of a netlist smaller by the passes of these letters, and prints its nodes and depth after each.
fn passes(alloc: Global, net: &blif_read::Netlist, letters: &str) {
    use circuit::Pass;
    let cuts = mig_cuts::CutRewriting::new(alloc).ok().expect("recipes");
    let three = mig_rewrite::CutPass::new(alloc).ok().expect("recipes");
    let mut graph = mig_from_netlist::GraphPass.run(alloc, net).ok().expect("graph");
    print!("start {}/{}", graph.node_count(), graph.depth(alloc).unwrap());
    for (place, letter) in letters.chars().enumerate() {
        let number = place as u32;
        let made = match letter {
            'c' => three.run(alloc, &graph),
            's' => mig_share::Sharing.run(alloc, &graph),
            'm' => mig_merge::Merging.run(alloc, &graph),
            'w' => cuts.run(alloc, &graph),
            'W' => cuts.shaken(alloc, &graph, number),
            'g' => cuts.in_place(alloc, &graph, None),
            'G' => cuts.in_place(alloc, &graph, Some(number)),
            'a' => cuts.by_ands(alloc, &graph, None),
            'A' => cuts.by_ands(alloc, &graph, Some(number)),
            'r' => mig_resub::Resubstitution.run(alloc, &graph),
            'R' => mig_resub::Resubstitution.shaken(alloc, &graph, number),
            _ => panic!("a letter of cmwWgGaArRs"),
        };
        graph = made.ok().expect("graph");
        print!(" {letter} {}/{}", graph.node_count(), graph.depth(alloc).unwrap());
    }
    println!("  {:.2} s", user_time());
}

fn main() {
    unsafe extern "C" {
        fn signal(number: i32, handler: usize) -> usize;
    }
    unsafe { signal(13, 0) }; // a closed pipe ends the program silently
    let args: Vec<String> = std::env::args().skip(1).collect();
    if args.len() < 2 {
        eprintln!("aqport NET LIB [capacity=N limit=N split3=0 ..]");
        std::process::exit(2);
    }
    let changes: Vec<(String, u64)> = args[2..]
        .iter()
        .map(|a| a.split_once('=').expect("KEY=N"))
        .map(|(k, v)| (k.to_string(), v.parse().expect("KEY=N")))
        .collect();
    let net = blif_read::read(&String::from_utf8_lossy(&std::fs::read(&args[0]).expect("NET")));
    let library = cell_library::Library::read(&std::fs::read_to_string(&args[1]).expect("LIB"), &changes);
    let alloc = Global;
    let name = |path: &str| {
        std::path::Path::new(path)
            .file_stem()
            .unwrap()
            .to_string_lossy()
            .into_owned()
    };
    if let Ok(letters) = std::env::var("PORT_PASSES") {
        return passes(alloc, &net, &letters);
    }
    if std::env::var("PORT_GRAPHS").is_ok() {
        let graphs = plan_compact::all_graphs(alloc, &net).ok().expect("graphs");
        for (number, graph) in graphs.iter().enumerate() {
            println!(
                "graph {number}: nodes={} depth={}",
                graph.node_count(),
                graph.depth(alloc).unwrap()
            );
        }
        println!("graphs: {:.2} s", user_time());
        if std::env::var("PORT_GRAPHS").unwrap() == "only" {
            return;
        }
    }
    let start = user_time();
    let found = plan_compact::found_chip(alloc, &library, &net)
        .ok()
        .expect("memory");
    let seconds = user_time() - start;
    let notes = NOTES.lock().unwrap();
    let searches: Vec<String> = notes
        .iter()
        .map(|n| format!("{}[{} {:.2}s]", n.name, n.said, n.seconds))
        .collect();
    let head = format!("{} {} reach={}", name(&args[0]), name(&args[1]), library.reach());
    match found {
        None => {
            let why = if notes.iter().any(|n| n.said != "nothing") {
                "REFUSED by the check or a limit"
            } else {
                "nothing found"
            };
            println!("{head} {why} user={seconds:.2} {}", searches.join(" "))
        }
        Some(chip) => {
            let (cells, jj, bare, rows) = counts(chip.net.rows.as_slice());
            let wires: usize = (0..chip.row_count())
                .flat_map(|r| chip.cells_at(r))
                .map(|c| {
                    [c.source0, c.source1, c.source2]
                        .iter()
                        .filter(|s| s.is_some())
                        .count()
                })
                .sum();
            println!(
                "{head} cells={cells} jj={jj} rows={rows} wires={wires} bufrows={bare} ({:.0}%) width={} \
                 user={seconds:.2} {}",
                100.0 * bare as f64 / rows as f64,
                chip.span(),
                searches.join(" ")
            );
        }
    }
}
