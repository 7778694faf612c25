//! The calls as include/mescjadro.h declares them.
unsafe extern "C" {
    pub fn mescjadro_decode(command: *const u8, command_len: usize, numbers: *mut u32, numbers_len: usize) -> u32;
    pub fn mescjadro_encode(numbers: *const u32, numbers_len: usize, out: *mut u8, out_len: usize) -> u32;
    pub fn mescjadro_list_command(
        command: *const u8,
        command_len: usize,
        out: *mut u8,
        out_len: usize,
        length: *mut usize,
    ) -> u32;
    pub fn mescjadro_objects(file: *const u8, file_len: usize, result: *mut u32, result_len: usize) -> u32;
    pub fn mescjadro_object(file: *const u8, file_len: usize, object: u32, result: *mut u32, result_len: usize) -> u32;
    pub fn mescjadro_list_object(
        file: *const u8,
        file_len: usize,
        object: u32,
        out: *mut u8,
        out_len: usize,
        length: *mut usize,
    ) -> u32;
    pub fn mescjadro_list(file: *const u8, file_len: usize, out: *mut u8, out_len: usize, length: *mut usize) -> u32;
    pub fn mescjadro_write_objects(
        version: u32,
        flags: *const u8,
        flags_len: usize,
        counts: *const u32,
        counts_len: usize,
        commands: *const u8,
        commands_len: usize,
        out: *mut u8,
        out_len: usize,
        length: *mut usize,
    ) -> u32;
    pub fn mescjadro_index(index: *const u8, index_len: usize, result: *mut u32, result_len: usize) -> u32;
    pub fn mescjadro_entry(index: *const u8, index_len: usize, entry: u32, result: *mut u32, result_len: usize) -> u32;
    pub fn mescjadro_resolve(
        index: *const u8,
        index_len: usize,
        entry: u32,
        result: *mut u32,
        result_len: usize,
    ) -> u32;
    pub fn mescjadro_write_index(
        version: u32,
        app: *const u8,
        app_len: usize,
        kinds: *const u8,
        kinds_len: usize,
        playbacks: *const u8,
        playbacks_len: usize,
        objects: *const u16,
        objects_len: usize,
        names: *const u8,
        names_len: usize,
        out: *mut u8,
        out_len: usize,
        length: *mut usize,
    ) -> u32;
    pub fn mescjadro_fresh_banks(gpr: *mut u32, gpr_len: usize, psr: *mut u32, psr_len: usize) -> u32;
    pub fn mescjadro_fresh_session(session: *mut u32, session_len: usize) -> u32;
    pub fn mescjadro_default_budgets(budgets: *mut u32, budgets_len: usize) -> u32;
    pub fn mescjadro_gpr(gpr: *const u32, gpr_len: usize, number: u16, result: *mut u32, result_len: usize) -> u32;
    pub fn mescjadro_psr(psr: *const u32, psr_len: usize, number: u16, result: *mut u32, result_len: usize) -> u32;
    pub fn mescjadro_set_gpr(gpr: *mut u32, gpr_len: usize, number: u16, value: u32) -> u32;
    pub fn mescjadro_set_psr_player(psr: *mut u32, psr_len: usize, number: u16, value: u32) -> u32;
    pub fn mescjadro_vm_step(
        gpr: *mut u32,
        gpr_len: usize,
        psr: *mut u32,
        psr_len: usize,
        commands: *const u8,
        commands_len: usize,
        pc: *mut usize,
        budget: u32,
        answer: *mut u32,
        answer_len: usize,
    ) -> u32;
    pub fn mescjadro_vm_run(
        gpr: *mut u32,
        gpr_len: usize,
        psr: *mut u32,
        psr_len: usize,
        commands: *const u8,
        commands_len: usize,
        pc: *mut usize,
        budget: u32,
        answer: *mut u32,
        answer_len: usize,
    ) -> u32;
    pub fn mescjadro_runner_run(
        gpr: *mut u32,
        gpr_len: usize,
        psr: *mut u32,
        psr_len: usize,
        frames: *mut u32,
        frames_len: usize,
        titles: *const u32,
        titles_len: usize,
        file: *const u8,
        file_len: usize,
        object: u32,
        budgets: *const u32,
        budgets_len: usize,
        session: *mut u32,
        session_len: usize,
        outcome: *mut u32,
        outcome_len: usize,
    ) -> u32;
    pub fn mescjadro_runner_resume(
        gpr: *mut u32,
        gpr_len: usize,
        psr: *mut u32,
        psr_len: usize,
        frames: *mut u32,
        frames_len: usize,
        titles: *const u32,
        titles_len: usize,
        file: *const u8,
        file_len: usize,
        budgets: *const u32,
        budgets_len: usize,
        session: *mut u32,
        session_len: usize,
        outcome: *mut u32,
        outcome_len: usize,
    ) -> u32;
    pub fn mescjadro_driver_run(
        gpr: *mut u32,
        gpr_len: usize,
        psr: *mut u32,
        psr_len: usize,
        frames: *mut u32,
        frames_len: usize,
        titles: *mut u32,
        titles_len: usize,
        index: *const u8,
        index_len: usize,
        file: *const u8,
        file_len: usize,
        entry: u32,
        budgets: *const u32,
        budgets_len: usize,
        session: *mut u32,
        session_len: usize,
        outcome: *mut u32,
        outcome_len: usize,
    ) -> u32;
    pub fn mescjadro_driver_resume(
        gpr: *mut u32,
        gpr_len: usize,
        psr: *mut u32,
        psr_len: usize,
        frames: *mut u32,
        frames_len: usize,
        titles: *mut u32,
        titles_len: usize,
        index: *const u8,
        index_len: usize,
        file: *const u8,
        file_len: usize,
        budgets: *const u32,
        budgets_len: usize,
        session: *mut u32,
        session_len: usize,
        outcome: *mut u32,
        outcome_len: usize,
    ) -> u32;
    pub fn mescjadro_disc_check(
        index: *const u8,
        index_len: usize,
        file: *const u8,
        file_len: usize,
        result: *mut u32,
        result_len: usize,
    ) -> u32;
}
