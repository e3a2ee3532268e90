{
    use host::{Part, Reply, State, Voyage};
    use std::ops::ControlFlow;

    // MOVEQ #99,D0; MOVEQ #0,D1; then ADD.L D0,D1, SUBQ.L #1,D0 and BNE back to the ADD; HALT. In all 300 steps.
    let mut memory = vec![0u8; 0x200];
    memory[..12].copy_from_slice(&[0x70, 99, 0x72, 0, 0xD2, 0x80, 0x53, 0x80, 0x66, 0xFA, 0x4A, 0xC8]);
    let mut state = State::fresh();
    state.sr = 0x2700;
    state.a[7] = 0x100;
    let folder = std::env::temp_dir().join(format!("voyage-{}", std::process::id()));
    std::fs::create_dir(&folder).unwrap();

    // One run, to its end.
    let mut whole = Voyage::new(&state, memory.clone());
    assert_eq!(whole.part(400), Part { reply: Reply::Stopped, count: 300 });
    assert_eq!(whole.state().unwrap().d[..2], [0, 4950]);

    // The same in ten parts, with a break after each: the next part goes on from what the disk gives back.
    let mut voyage = Voyage::new(&state, memory.clone());
    let mut last = voyage.part(0);
    for budget in [40; 10] {
        last = voyage.part(budget);
        voyage.save(&folder).unwrap();
        voyage = Voyage::restore(&folder).unwrap();
    }
    // The bytes of the block and of memory are equal, and the steps in all.
    assert_eq!((&voyage, last.reply), (&whole, Reply::Stopped));

    // Part by part until the watch is over, saved after each. After the break the rest.
    let mut voyage = Voyage::new(&state, memory);
    let watch = voyage
        .parts([40; 10], |voyage, _| {
            voyage.save(&folder)?;
            let over = voyage.steps() >= 120;
            Ok::<_, std::io::Error>(if over { ControlFlow::Break(()) } else { ControlFlow::Continue(()) })
        })
        .unwrap();
    assert_eq!((watch.reply, watch.count), (Reply::Done, 120));
    let mut voyage = Voyage::restore(&folder).unwrap();
    assert_eq!(voyage.part(280), Part { reply: Reply::Stopped, count: 180 });
    assert_eq!(voyage, whole);
    std::fs::remove_dir_all(&folder).unwrap();
}
