{
    use host::{run, srecord_length, srecord_read, srecord_write, Reply, State};

    // MOVEQ #5,D0; MOVEQ #-5,D1; ADD.L D1,D0; HALT
    let mut mem = vec![0u8; 0x200];
    mem[..8].copy_from_slice(&[0x70, 0x05, 0x72, 0xFB, 0xD0, 0x81, 0x4A, 0xC8]);
    let mut state = State::fresh();
    state.sr = 0x2700;
    state.a[7] = 0x100;
    let mut block = state.to_block();
    // Four steps are done, and the fifth is refused: the core has stopped.
    assert_eq!(run(&mut block, &mut mem, 100), (Reply::Stopped, 4));
    let state = State::from_block(&block).unwrap();
    assert_eq!((state.d[0], state.pc, state.sr, state.stopped), (0, 8, 0x2715, true));

    // The same program at 0x400, from S-records and back. Data is written as S3, the start address as S7.
    let mut mem = vec![0u8; 0x500];
    let text = b"S10B0400700572FBD0814AC8AB\r\nS9030400f8\n";
    assert_eq!(srecord_read(text, &mut mem), (Reply::Done, 0x400));
    assert_eq!(mem[0x400..0x408], [0x70, 0x05, 0x72, 0xFB, 0xD0, 0x81, 0x4A, 0xC8]);
    let mut back = vec![0u8; srecord_length(8)];
    assert_eq!(srecord_write(&mem, 0x400, 8, 0x400, &mut back), (Reply::Done, back.len()));
    assert_eq!(back, b"S30D00000400700572FBD0814AC8A9\nS70500000400F6\n");
}
