use std::{env, error, fs, process};
use wallmirror::{Cell, Mesh, Plan};

fn main() -> Result<(), Box<dyn error::Error>> {
    let plan = Plan { columns: 3, levels: 3, admissibility_class: 2, ..Plan::default() };
    let mut mesh = Mesh::open(plan)?;
    mesh.refine_cells(&[Cell(0)])?;

    let path = env::temp_dir().join(format!("wallmirror-example-{}.mesh", process::id()));
    let of_path = |error| format!("{}: {error}", path.display());
    fs::write(&path, mesh.to_file()?).map_err(of_path)?;
    let loaded = Mesh::from_file(&fs::read(&path).map_err(of_path)?)?;
    fs::remove_file(&path).map_err(of_path)?;
    assert_eq!(loaded, mesh);
    println!("{:?}", loaded.plan);
    Ok(())
}
