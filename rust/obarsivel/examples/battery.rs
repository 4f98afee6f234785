//! Loads a small description, reads and writes two elements, prints the list.
//! `cargo run --example battery --features mock`
use obarsivel::{Description, Part, Shown};

/// A voltage in millivolts and a relay with verbal states.
const TEXT: &str = r#"ASAP2_VERSION 1 61
/begin PROJECT DEMO "a demonstration"
  /begin MODULE ECU ""
    /begin MOD_COMMON "" BYTE_ORDER MSB_FIRST /end MOD_COMMON
    /begin RECORD_LAYOUT WORD FNC_VALUES 1 UWORD ROW_DIR DIRECT /end RECORD_LAYOUT
    /begin RECORD_LAYOUT BYTE FNC_VALUES 1 UBYTE ROW_DIR DIRECT /end RECORD_LAYOUT
    /begin COMPU_METHOD MILLI "" RAT_FUNC "%6.3" "V" COEFFS 0 1000 0 0 0 1 /end COMPU_METHOD
    /begin COMPU_METHOD SWITCH "" TAB_VERB "%1" "" COMPU_TAB_REF ON_OFF /end COMPU_METHOD
    /begin COMPU_VTAB ON_OFF "" TAB_VERB 2 0 "OFF" 1 "ON" /end COMPU_VTAB
    /begin CHARACTERISTIC U_BATT "" VALUE 0x1000 WORD 0 MILLI 6 16 /end CHARACTERISTIC
    /begin CHARACTERISTIC RELAY "" VALUE 0x1002 BYTE 0 SWITCH 0 1 /end CHARACTERISTIC
  /end MODULE
/end PROJECT
"#;

/// Runs the example.
fn main() -> Result<(), Box<dyn std::error::Error>> {
    let image = vec![0x2E, 0x18, 0x01];
    let mut reader = Description::load(TEXT, image, 0x1000).map_err(|refusal| refusal.located(TEXT.as_bytes()))?;
    let battery = reader.find("U_BATT")?.ok_or("no U_BATT")?;
    if let Shown::Number(volts) = reader.read(battery, Part::V, 0)?.shown {
        println!("U_BATT is {volts} V");
    }
    reader.write_physical(battery, Part::V, 0, "12.5")?;
    if let Err(refusal) = reader.write_physical(battery, Part::V, 0, "16.5") {
        println!("16.5 V: {refusal}");
    }
    let relay = reader.find("RELAY")?.ok_or("no RELAY")?;
    reader.write_raw(relay, Part::V, 0, 0)?;
    print!("{}", String::from_utf8_lossy(&reader.listing()?));
    println!("image {:02X?}", reader.image());
    let broken = TEXT.replace("TAB_REF ON_OFF", "TAB_REF ON_OF");
    if let Err(refusal) = Description::load(broken.as_str(), [0; 3], 0x1000) {
        println!("{}", refusal.located(broken.as_bytes()));
    }
    Ok(())
}
