//! Reads a mesh from frames, undoes one split of it, and writes the coarse mesh as frames. Then gives a mesh that is refused.

use flatcarol::{Asked, Mesh, Refusal, Room};

const FRAMES: &[u8] = include_bytes!("../../samples/example.frames");

fn main() -> Result<(), Refusal> {
    let mut room = Room::new();
    let mesh = Mesh::from_frames(FRAMES)?;

    let reading = mesh.undo_one(Asked::Least, &mut room)?;
    println!("triangle 0 has role {}", reading.role);
    println!("vertex map {:?}", reading.vertex_map);
    println!("triangle map {:?}", reading.triangle_map);
    print!("{}", String::from_utf8_lossy(&reading.coarse.to_frames()?));

    match reading.coarse.undo_one(Asked::Least, &mut room) {
        Ok(_) => println!("the coarse mesh is a split mesh too"),
        Err(refusal) => println!("{refusal}"),
    }
    Ok(())
}
