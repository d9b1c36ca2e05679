! First counts from Fortran: two events of one set. Time goes on by KISTALUB_STEP, so the program calls PAPI alone.
program first
    implicit none
    include 'f90papi.h'
    integer :: set, check, number
    integer(8) :: counts(2)

    check = PAPI_VER_CURRENT
    call papif_library_init(check)
    if (check /= PAPI_VER_CURRENT) stop 1
    set = PAPI_NULL
    call papif_create_eventset(set, check)
    if (check /= PAPI_OK) stop 2
    call papif_add_named_event(set, 'INST_RETIRED', check)
    if (check /= PAPI_OK) stop 3
    call papif_add_named_event(set, 'CYCLES', check)
    if (check /= PAPI_OK) stop 4
    call papif_start(set, check)
    if (check /= PAPI_OK) stop 5
    call papif_stop(set, counts, check)
    if (check /= PAPI_OK) stop 6
    call papif_num_events(set, number)
    write (*, '(i0, a, i0, a, i0, a)') number, ' events: ', counts(1), ' instructions, ', counts(2), ' cycles'
    call papif_shutdown()
end program first
