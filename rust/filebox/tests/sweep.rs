//! What a fixture's programmer relies on in a sweep: what is lost goes and nothing else, every cut is mended and swept again, and a `Table`
//! keeps its index.

use filebox::{index_of, mend, sweep, Holder, Number, Refused, Table, NO_STOP, PADDING};

/// `.R` with a sheet, and cut off from it two directories that hold each other, a sheet of 30 bytes in one, and an entry of `.R`'s sheet.
fn with_lost_loop() -> Result<Table, Refused> {
    let mut table = Table::free(24);
    table.ask(1, "CRD .R")?;
    table.file(1, "M", ".R:LIMITS", b"5.0 V")?;
    table.ask(1, "CRD .R:LINE1")?;
    table.ask(1, "CRD .R:LINE1:LINE2")?;
    table.ask(1, "DUP .R:LINE1 .R:LINE1:LINE2:LOOP")?;
    table.file(1, "M", ".R:LINE1:LINE2:KEYS", &[b'9'; 30])?;
    table.ask(1, "DUP .R:LIMITS .R:LINE1:SHARED")?;
    table.ask(1, "DEL .R:LINE1")?;
    Ok(table)
}

/// The table as if the loop had never been.
fn without() -> Result<Table, Refused> {
    let mut table = Table::free(24);
    table.ask(1, "CRD .R")?;
    table.file(1, "M", ".R:LIMITS", b"5.0 V")?;
    Ok(table)
}

#[test]
fn what_is_lost_goes_and_nothing_else() -> Result<(), Refused> {
    let mut table = with_lost_loop()?;
    let swept = table.sweep(NO_STOP)?;
    // four entries, three headings, two texts, and the count of LIMITS
    assert_eq!(swept.numbers(), [0, 0, 0, 0, 0, 0, 10]);
    assert_eq!(table, without()?);
    assert_eq!(table.sheet(1, ".R:LIMITS")?, b"5.0 V");
    assert_eq!(table.sweep(0)?.stores, 0);
    Ok(())
}

#[test]
fn a_sweep_cut_anywhere_mended_and_swept_again_ends_as_one_uncut() -> Result<(), Refused> {
    for stop in 0..10 {
        let mut table = with_lost_loop()?;
        let cut = table.sweep(stop).unwrap_err().answer();
        assert_eq!((cut.number, cut.stores), (Number::Stopped, stop));
        table.mend()?;
        // it is a table as any
        table.ask(1, "CRD .R:NEW")?;
        table.ask(1, "DEL .R:NEW")?;
        table.sweep(NO_STOP)?;
        assert_eq!(table, without()?, "cut at {stop}");
    }
    Ok(())
}

#[test]
fn the_index_is_true_after_it() -> Result<(), Refused> {
    let mut bytes = with_lost_loop()?.into_bytes();
    let mut index = index_of(&bytes)?;
    let lent = index.clone();
    assert_eq!(sweep(&mut bytes, &mut index, 4).number, Number::Stopped);
    assert_eq!(index, lent, "stopped, it is as lent");
    assert_eq!(mend(&mut bytes, &mut index, NO_STOP).number, Number::Done);
    assert_eq!(index, index_of(&bytes)?);
    assert_eq!(sweep(&mut bytes, &mut index, NO_STOP).number, Number::Done);
    assert_eq!(index, index_of(&bytes)?);
    Ok(())
}

#[test]
fn a_table_keeps_its_index_and_never_gets_26() -> Result<(), Refused> {
    let mut table = with_lost_loop()?;
    table.sweep(NO_STOP)?;
    let found = table.look_up(Holder::Base(1), ".R")?;
    assert_eq!(found.entry, Some(1));
    table.ask(1, "CRD .R:NEW")?;
    // bytes that were handed out, and a table of bytes
    let bytes = with_lost_loop()?.into_bytes();
    table.as_mut().copy_from_slice(&bytes);
    assert_eq!(table.sweep(NO_STOP)?.stores, 10);
    let mut memory = bytes;
    let mut lent = Table::of(&mut memory[..]);
    assert_eq!(lent.sweep(NO_STOP)?.stores, 10);
    assert_eq!(memory, without()?.into_bytes());
    Ok(())
}

#[test]
fn refusals_leave_all_as_it_was() -> Result<(), Refused> {
    let sound = with_lost_loop()?.into_bytes();
    let mut spoiled = sound.clone();
    spoiled[0] = 7;
    let wrong: Vec<u16> = vec![PADDING; 24];
    for (bytes, list, number) in [
        (&sound[..40], &wrong[..], Number::TableLength),
        (&spoiled[..], &wrong[..], Number::TableNotSound),
        (&sound[..], &wrong[..], Number::Index),
        (&sound[..], &wrong[..23], Number::Index),
    ] {
        for stop in [0, NO_STOP] {
            let (mut table, mut index) = (bytes.to_vec(), list.to_vec());
            let answer = sweep(&mut table, &mut index, stop);
            assert_eq!((answer.number, answer.stores), (number, 0));
            assert_eq!((&table[..], &index[..]), (bytes, list));
        }
    }
    assert_eq!(
        Table::of(spoiled).sweep(NO_STOP).unwrap_err().to_string(),
        "2: table not sound"
    );
    Ok(())
}
