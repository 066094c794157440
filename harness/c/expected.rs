//! What discharge.c has to print, worked out by the oracle.
use calls::lowest::{full_read, groups};
use calls::solver::{Cell, Config};

const ROWS: usize = 360;
const SHOWN: usize = 15;

fn main() {
    let config = Config { n_nodes: 11, numbers: [3.0, 4.2, 96_485.0, 8.314, 2e-4] };
    let cell = Cell::graphite_nmc(config).expect("the ready cell");
    let (current_a, dt, temp_k) = (5.0, 10.0, 298.15);
    let made = cell.simulate_discharge(current_a, dt, temp_k, 3600.0, 8 * ROWS, groups(ROWS));
    println!("graphite_nmc, 11 nodes, {current_a:.1} A, {dt:.1} s a step, {temp_k:.2} K");
    println!("  time_s   voltage          its bits  theta_neg  theta_pos");
    for (i, row) in made.rows.iter().enumerate() {
        if (i + 1) % SHOWN == 0 || i + 1 == made.rows.len() {
            println!("{:8.1}  {:8.6}  {:016X}  {:9.7}  {:9.7}", row[6], row[0], row[0].to_bits(), row[2], row[3]);
        }
    }
    let ending = format!("{:?}", made.ending).to_lowercase();
    println!("ended by {ending} after {} rows", made.rows.len());
    let chosen = 3.5;
    let first = full_read(&made.rows, made.rows.len(), chosen).expect("a row under it");
    let [voltage, .., time_s, _] = made.rows[first];
    println!("first under {chosen:.2} V: row {first} from 0, {voltage:.6} V at {time_s:.1} s; a full read finds the same");
    println!("state of charge {:.6}", made.cell.soc_estimate().expect("a cell that passes"));
    let refusal = made.cell.step(current_a, dt, 500.0).err().expect("500 K is out of range");
    println!("a step at 500 K is refused: {refusal}, temperature; the answer is unchanged");
}
