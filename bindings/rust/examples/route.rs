//! Folds the constants of a small pipeline route in one call: the bore, the chainage, the valve offsets, a struct of
//! all three, and a constant that is refused. Of each it prints the call as WGSL writes it, the value, its record and
//! its bytes for a storage buffer; at the end it shows where the struct's members lie.
use std::error::Error;

use vireodesk::{type_ctor, Kind, Route, Stage, Target, Type, Value};

fn main() -> Result<(), Box<dyn Error>> {
    // The types of bore, chainage and valves, and a struct of them.
    let members = [Type::F32, Type::vector(3, Kind::F32), Type::array(3, Type::F32)];
    let all = Type::structure(1, members.clone());
    let [bore, chainage, valves] = members.clone().map(Target::from);

    // Whole numbers (i64) and fractions (f64) are abstract until they are folded, and mix: each converts by itself.
    let offsets = [1180.5.into(), 4400.25.into(), Value::from(9031i64)];
    let parts = [0.508.into(), Value::vector([0.0, 6204.75, 12410.0]), Value::array([1180.5, 4400.25, 9031.0])];
    let constants = [
        ("bore", bore, vec![0.508.into()]),
        ("chainage", chainage, vec![0i64.into(), 6204.75.into(), 12410i64.into()]),
        ("valves", valves.clone(), offsets.to_vec()),
        ("route", all.clone().into(), parts.to_vec()),
        // A valve too few is refused, not filled up; the other constants are folded all the same.
        ("two valves of three", valves, offsets[..2].to_vec()),
    ];

    // Typing says what the struct will be before anything is built.
    let types = parts.iter().map(Value::ty).collect::<Result<Vec<_>, _>>()?;
    assert_eq!(type_ctor(&all.clone().into(), &types)?, all);

    let mut route = Route::new();
    for (_, target, args) in &constants {
        route.push(Stage::Const, target, args);
    }
    let folded = route.fold()?;
    for ((name, target, args), folded) in constants.iter().zip(&folded) {
        let args: Vec<String> = args.iter().map(Value::to_string).collect();
        println!("{name}: {target}({})", args.join(", "));
        match folded {
            Ok(value) => {
                println!("  = {value}");
                println!("  record  {}", hex(&value.encode()?));
                println!("  storage {}", hex(&value.to_memory()?));
            }
            Err(refusal) => println!("  {refusal}"),
        }
    }

    // The struct in the storage buffer. What lies between its members is padding: zero.
    let value = folded[3].clone()?;
    let (layout, bytes) = (all.layout()?, value.to_memory()?);
    println!("storage buffer: {} bytes, aligned to {}", layout.size, layout.align);
    for (((name, ..), member), at) in constants.iter().zip(&members).zip(&layout.members) {
        let place = *at as usize..(at + member.layout()?.size) as usize;
        println!("{name} at {at}: {}", hex(&bytes[place]));
    }
    assert_eq!(Value::from_memory(&all, &bytes)?, value);
    Ok(())
}

fn hex(bytes: &[u8]) -> String {
    bytes.iter().map(|byte| format!("{byte:02x}")).collect()
}
