! The Fortran module: words that say why a call is refused, a world that is kept and brought back, a load that is refused,
! case x1, long sweeps, the count before a sweep, emitters, limiters, books, readings of a world that is only read, lengths, cell numbers, the count and the most steps of a remap.
! The exit status is not 0 if anything differs.
program test
  use, intrinsic :: iso_fortran_env, only: int64
  use puldeho
  implicit none
  type(puldeho_grid), parameter :: grid = puldeho_grid(4, 1, 1, 1)
  integer, parameter :: air(6) = 100, tracers(6) = [0, 0, 100, 200, 100, 0]
  type(puldeho_world) :: world, kept
  character(len=:), allocatable :: text
  integer(int64) :: lo, hi
  integer :: refusal

  call world%why_total(0, text)
  call says("W (columns) is 0, it must be 4 to 72")
  call puldeho_why_load(grid, [100, 100, 0, 100, 100, 100], tracers, text)
  call says("cell 2 (layer 0, row 0, column 1) has air 0")
  call puldeho_why_load(grid, air, tracers, text)
  call says("the call would be accepted")

  call world%load(grid, air, tracers, refusal)
  call gives(puldeho_accepted)
  kept = world
  call world%emission(0, -1, 1, refusal)
  call gives(puldeho_refusal_index)
  call world%why_emission(0, -1, 1, text)
  call says("there is no cell 4294967295 (-1, if the number was signed)")
  call world%withdrawal(0, 3, -1, refusal)
  call gives(puldeho_refusal_withdrawal)
  call world%zonal(0, 0, [0, 100, 0, 0], refusal)
  call gives(puldeho_refusal_zonal)
  call world%why_zonal(0, 0, [0, 100, 0, 0], text)
  call says("cell 2 (layer 0, row 0, column 1) has air 100")
  call world%meridional(0, [100, 0, 0, 0, 0, 0, 0, 0], refusal)
  call gives(puldeho_refusal_meridional)
  call world%why_meridional(0, [100, 0, 0, 0, 0, 0, 0, 0], text)
  call says("cell 0 (south cap of layer 0) has air 100")
  call world%why_remap([0, 0, 0, 65535], text)
  call says("pair 1 of 0 to 1 is (0, 65535)")

  call world%zonal(0, 0, [0, 50, 0, 0], refusal)
  call gives(puldeho_accepted)
  world = kept
  call long_sweeps(world)
  world = kept
  call two_presses(world)
  world = kept
  call emitters(world)
  world = kept
  call limiters(world)
  world = kept
  call books(world)
  call full_sums()
  world = kept
  world%tracers(3) = 150
  call world%total(0, refusal)
  call gives(puldeho_refusal_books)
  call world%why_total(0, text)
  call says("the book of tracer 0 has 400 loaded, 0 emitted and 0 withdrawn (numbers 56 to 58 of the ledger), " // &
      "which makes 400, and its cells sum to 350, 50 less")
  call world%load(world%grid, world%air, world%tracers, refusal)
  call gives(puldeho_accepted)
  if (any(world%tracers /= [0, 0, 100, 150, 100, 0]) .or. any(world%air /= air)) error stop "loaded again, the world differs"
  world = kept
  if (any(world%tracers /= tracers) .or. lbound(world%air, 1) /= 0) error stop "the kept world differs"
  call world%load(grid, [0, 0, 0, 0, 0, 0], tracers, refusal)
  call gives(puldeho_refusal_air_range)
  if (any(world%air /= air) .or. any(world%tracers /= tracers)) error stop "a refused load changed the world"
  call world%emission(0, 0, 1000000, refusal)
  call gives(puldeho_accepted)
  call read_only(world)
  call shows_the_scale()
  call readout()
  call numbers(puldeho_grid(6, 3, 2, 5))
  print "(a)", "the Fortran module: as it should be"

contains

  ! Case x1. Before version 0.6 the scale was 65,536, and the row's tracer 322, 110, 27, 1097.
  subroutine shows_the_scale()
    type(puldeho_world) :: one

    call one%load(grid, [100, 928, 314, 81, 658, 100], [0, 221, 496, 522, 317, 0], refusal)
    call gives(puldeho_accepted)
    call one%zonal(0, 0, [421, 462, 475, 229], refusal)
    call gives(puldeho_accepted)
    if (any(one%tracers /= [0, 321, 110, 27, 1098, 0]) .or. puldeho_scale /= 262144) error stop "x1 shows another scale"
  end subroutine

  subroutine long_sweeps(one)
    type(puldeho_world), intent(inout) :: one

    call one%long_zonal(0, 0, [401, 400, 400, 400], refusal)
    call gives(puldeho_refusal_long_flux)
    call one%why_long_zonal(0, 0, [401, 400, 400, 400], text)
    call says("flux 0 (between columns 0 and 1) is 401, its size must be at most the row's air, 400")
    call one%long_zonal(0, 0, [100, 0, 0, 0], refusal)
    call gives(puldeho_refusal_long_air)
    call one%why_long_zonal(0, 0, [100, 0, 0, 0], text)
    call says("cell 1 (layer 0, row 0, column 0) has air 100, 0 come in and 100 go out")
    call one%long_zonal(0, 0, [0, 50, 0, 0], refusal)
    call gives(puldeho_accepted)
    if (any(one%tracers /= [0, 0, 37, 263, 100, 0])) error stop "a long sweep differs"
  end subroutine long_sweeps

  ! The count before the sweep, and the sweep with it; a negative count is refused as any other is.
  subroutine two_presses(one)
    type(puldeho_world), intent(inout) :: one
    integer :: substeps

    call one%count_zonal(0, 0, [150, 150, 150, 150], refusal, substeps)
    call gives(puldeho_accepted)
    if (substeps /= 2) error stop "the count differs"
    call one%zonal_with_count(0, 0, -1, [150, 150, 150, 150], refusal, substeps)
    call gives(puldeho_refusal_given_count)
    if (substeps /= 0) error stop "a refused sweep has a count"
    if (any(one%tracers /= tracers)) error stop "a refused sweep changed the world"
    call one%why_zonal_with_count(0, 0, 1, [150, 150, 150, 150], text)
    call says("the sweep of layer 0, row 0 takes 2 substeps now, and the given count is 1, which does not serve")
    call one%zonal_with_count(0, 0, 2, [150, 150, 150, 150], refusal, substeps)
    call gives(puldeho_accepted)
    if (substeps /= 2 .or. any(one%tracers /= [0, 163, 44, 38, 155, 0])) error stop "a sweep with a given count differs"
    call one%count_zonal(0, 0, [0, 100, 0, 0], refusal, substeps)
    call gives(puldeho_refusal_zonal)
    call one%why_count_zonal(0, 0, [0, 100, 0, 0], text)
    call says("cell 2 (layer 0, row 0, column 1) has air 100")
  end subroutine two_presses

  ! The units a tick are of 64 bits; negative units stand, and no tick gives them.
  subroutine emitters(one)
    type(puldeho_world), intent(inout) :: one
    type(puldeho_world) :: before
    integer(int64) :: units

    call one%tick(0, refusal)
    call gives(puldeho_accepted)
    call one%add_emitter(0, 3, 7, 40, refusal)
    call gives(puldeho_accepted)
    call one%add_emitter(0, 4, -1, 30, refusal)
    call gives(puldeho_accepted)
    call one%tick(0, refusal)
    call gives(puldeho_accepted)
    call one%units_a_tick(0, refusal, units)
    if (units /= 70 .or. any(one%tracers /= [0, 0, 100, 240, 130, 0])) error stop "a tick differs"
    call one%add_emitter(0, 1, -1, 1, refusal)
    call gives(puldeho_refusal_emitter_added)
    call one%why_add_emitter(0, 1, -1, 1, text)
    call says("tracer 0 already has the id 4294967295 (-1, if the number was signed): emitter 1, in cell 4")
    before = one
    call one%remove_emitter(0, 7, refusal)
    call gives(puldeho_accepted)
    if (any(one%ledger(0:8) /= [1, 30, 0, -1, 4, 30, 0, 0, 0])) error stop "the ledger differs"
    call one%remove_emitter(0, 7, refusal)
    call gives(puldeho_refusal_emitter_absent)
    call one%why_remove_emitter(0, 7, text)
    call says("tracer 0 has no emitter of the id 7; it has the ids 4294967295")
    one = before
    call one%add_emitter(0, 0, 9, -1, refusal)
    call gives(puldeho_accepted)
    call one%units_a_tick(0, refusal, units)
    if (units /= 4294967365_int64) error stop "the units a tick differ"
    call one%tick(0, refusal)
    call gives(puldeho_refusal_emission)
    call one%why_tick(0, text)
    call says("tracer 0 has the total 470 and a tick gives 4294967365")
    call one%units_a_tick(1, refusal, units)
    call gives(puldeho_refusal_index)
    if (units /= 0) error stop "a refused reading has a count"
    call one%why_units_a_tick(1, text)
    call says("there is no tracer 1")
    call one%load(one%grid, one%air, one%tracers, refusal)
    call gives(puldeho_accepted)
    if (any(one%ledger(0:50) /= 0) .or. size(one%ledger) /= puldeho_ledger_length(one%grid)) error stop "emitters after a load"
  end subroutine emitters

  ! A limiter is set, read, refused and kept with the world; a bound above 2**63 - 1 is negative here.
  subroutine limiters(one)
    type(puldeho_world), intent(inout) :: one
    type(puldeho_world) :: before, none

    call none%limiter(0, refusal, lo, hi)
    if (refusal /= 0 .or. lo /= 0 .or. hi /= 0) error stop "a limiter before a load"
    call has(one, puldeho_limiter_present, 0_int64, 0_int64)
    before = one
    call one%set_limiter(0, puldeho_limiter_fixed, 2_int64**41 - 1, -1_int64, refusal)
    call gives(puldeho_accepted)
    call has(one, puldeho_limiter_fixed, 2_int64**41 - 1, -1_int64)
    call one%set_limiter(0, puldeho_limiter_positive, -1_int64, 5_int64, refusal)
    call gives(puldeho_refusal_limiters)
    call one%why_set_limiter(0, puldeho_limiter_fixed, -1_int64, 5_int64, text)
    call says("lo is 18446744073709551615 (-1, if the number was signed) and above hi, which is 5")
    call one%set_limiter(0, 4, 0_int64, 0_int64, refusal)
    call gives(puldeho_refusal_limiters)
    call one%set_limiter(-1, 4, 0_int64, 0_int64, refusal)
    call gives(puldeho_refusal_index)
    call has(one, puldeho_limiter_fixed, 2_int64**41 - 1, -1_int64)
    one = before
    call has(one, puldeho_limiter_present, 0_int64, 0_int64)
    call one%limiter(1, refusal, lo, hi)
    if (refusal /= 0) error stop "an absent tracer has a limiter"
    call sweep(puldeho_limiter_present, 0_int64, 150)
    call sweep(puldeho_limiter_positive, 0_int64, 144)
    call sweep(puldeho_limiter_fixed, int(3.1d0*puldeho_scale, int64), 148)
  end subroutine limiters

  ! Tracer 0 of the world has this limiter.
  subroutine has(one, number, low, high)
    type(puldeho_world), intent(in) :: one
    integer, intent(in) :: number
    integer(int64), intent(in) :: low, high
    integer :: found

    call one%limiter(0, found, lo, hi)
    if (found /= number .or. lo /= low .or. hi /= high) error stop "another limiter"
  end subroutine has

  ! What was loaded, emitted and withdrawn is read, kept with the world, and begun anew by a load.
  subroutine books(one)
    type(puldeho_world), intent(inout) :: one
    type(puldeho_world) :: before, none

    call booked(none, 0, [-1, -1, -1])
    call booked(one, 1, [-1, -1, -1])
    call booked(one, -1, [-1, -1, -1])
    call booked(one, 0, [400, 0, 0])
    call one%emission(0, 3, 50, refusal)
    call one%add_emitter(0, 2, 7, 11, refusal)
    call one%tick(0, refusal)
    call one%withdrawal(0, 3, 20, refusal)
    call gives(puldeho_accepted)
    before = one
    call one%zonal(0, 0, [0, 50, 0, 0], refusal)
    call booked(one, 0, [400, 61, 20])
    call one%withdrawal(0, 3, 1, refusal)
    call booked(one, 0, [400, 61, 21])
    one = before
    call booked(one, 0, [400, 61, 20])
    call one%load(one%grid, one%air, one%tracers, refusal)
    call gives(puldeho_accepted)
    call booked(one, 0, [441, 0, 0])
  end subroutine books

  ! A gas that is emitted and withdrawn whole: sums above 2**31 - 1 are not negative here.
  subroutine full_sums()
    type(puldeho_world) :: one
    integer(int64) :: loaded, emitted, withdrawn
    integer :: i

    call one%load(grid, air, [0, 0, 0, 0, 0, 0], refusal)
    do i = 1, 16
      call one%emission(0, 2, puldeho_total_limit, refusal)
      call gives(puldeho_accepted)
      call one%withdrawal(0, 2, puldeho_total_limit, refusal)
      call gives(puldeho_accepted)
    end do
    call one%emission(0, 2, puldeho_total_limit, refusal)
    call gives(puldeho_refusal_emission)
    call one%why_emission(0, 2, puldeho_total_limit, text)
    call says("since the load 4294967280 units of tracer 0 were emitted (number 57 of the ledger) and the amount is 268435455")
    call one%emission(0, 2, 15, refusal)
    call gives(puldeho_accepted)
    call one%emission(0, 2, 1, refusal)
    call gives(puldeho_refusal_emission)
    call one%book(0, loaded, emitted, withdrawn)
    if (loaded /= 0 .or. emitted /= puldeho_sum_limit .or. withdrawn /= puldeho_sum_limit - 15) error stop "full sums differ"
  end subroutine full_sums

  ! A tracer of the world has this book.
  subroutine booked(one, tracer, sums)
    type(puldeho_world), intent(in) :: one
    integer, intent(in) :: tracer, sums(3)
    integer(int64) :: loaded, emitted, withdrawn

    call one%book(tracer, loaded, emitted, withdrawn)
    if (any([loaded, emitted, withdrawn] /= sums)) error stop "another book"
  end subroutine booked

  ! What one sweep by a limiter leaves of a peak, 50 units of whose air go east.
  subroutine sweep(number, high, left)
    integer, intent(in) :: number, left
    integer(int64), intent(in) :: high
    type(puldeho_world) :: one

    call one%load(grid, air, [0, 100, 300, 200, 0, 0], refusal)
    call gives(puldeho_accepted)
    call one%set_limiter(0, number, 0_int64, high, refusal)
    call gives(puldeho_accepted)
    call one%zonal(0, 0, [0, 50, 0, 0], refusal)
    call gives(puldeho_accepted)
    if (one%tracers(2) /= left) error stop "a sweep by a limiter differs"
  end subroutine sweep

  ! Readings and words take a world that may not be written. A count may be above 65,535.
  subroutine read_only(one)
    type(puldeho_world), intent(in) :: one
    integer :: units

    call one%total(0, refusal, units)
    if (refusal /= puldeho_accepted .or. units /= 1000400) error stop "the total differs"
    call one%cell(0, 0, refusal, units)
    if (refusal /= puldeho_accepted .or. units /= 1000000) error stop "the cell differs"
    call one%units_a_tick(0, refusal)
    if (refusal /= puldeho_accepted) error stop "the units a tick are refused"
    call one%why_zonal(0, 0, [0, 100, 0, 0], text)
    if (index(text, "the fluxes themselves must diverge less at this cell") /= len(text) - 51) error stop "the words are cut"
  end subroutine read_only

  ! The remap's count: the column that the C header writes out, six times.
  subroutine readout()
    type(puldeho_world) :: three
    integer :: overlaps, i

    call three%load(puldeho_grid(4, 1, 3, 1), [(100, i = 1, 18)], [(0, i = 1, 18)], refusal)
    if (refusal /= puldeho_accepted) error stop "three layers are refused"
    call three%remap([0, 0, 150, 0, 200, 0, 0, 65536], refusal, overlaps)
    if (refusal /= puldeho_accepted .or. overlaps /= 24) error stop "the count of a remap differs"
  end subroutine readout

  subroutine numbers(other)
    type(puldeho_grid), intent(in) :: other
    integer :: absent(7)

    if (any([puldeho_air_length(other), puldeho_tracers_length(other), puldeho_zonal_fluxes_length(other), &
        puldeho_long_zonal_fluxes_length(other), puldeho_meridional_fluxes_length(other), &
        puldeho_remap_table_length(other)] /= [40, 200, 6, 6, 24, 6])) &
        error stop "a length differs"
    if (puldeho_most_remap_steps(puldeho_grid(72, 44, 32, 8)) /= 1623040 &
        .or. puldeho_most_remap_steps(puldeho_grid(4, 1, 3, 1)) /= 36) &
        error stop "the most steps of a remap differ"
    if (any([puldeho_cell_number(other, 1, 2, 5), puldeho_south_cap(other, 1), puldeho_north_cap(other, 1)] /= [38, 20, 39])) &
        error stop "a cell number differs"
    absent = [puldeho_cell_number(other, 2, 0, 0), puldeho_cell_number(other, 0, 3, 0), puldeho_cell_number(other, 0, 0, 6), &
        puldeho_cell_number(other, 0, 0, -1), puldeho_south_cap(other, 2), puldeho_north_cap(other, 2), &
        puldeho_north_cap(other, -1)]
    if (any(absent /= puldeho_no_cell)) error stop "an absent place has a number"
  end subroutine numbers

  subroutine says(beginning)
    character(len=*), intent(in) :: beginning

    if (index(text, beginning) /= 1) then
      print "(4a)", "says: ", text, ", and should begin: ", beginning
      error stop
    end if
  end subroutine says

  subroutine gives(wanted)
    integer, intent(in) :: wanted

    if (refusal /= wanted) then
      print "(a, i0, a, i0)", "gives ", refusal, ", and should give ", wanted
      error stop
    end if
  end subroutine gives

end program test
