use ngamsothul::Table;

fn main() {
    let table = Table::new(&[2], &[0.0, 2.0], &[10.0, 20.0]);
    match table.linear(&[0.5]) {
        Ok(value) => println!("ok {value}"),
        Err(refusal) => println!("no: {refusal}"),
    }
}
