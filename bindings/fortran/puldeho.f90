! Puldeho, the transport core of the tracer console, for Fortran 2003 and later: version 0.8.0.
! Made by tools/bindings from the tables of bindings/: not to be edited.
!
! To compile and link: gfortran $(pkg-config --variable=fortran puldeho) program.f90 $(pkg-config --libs puldeho)
!
!     use puldeho
!     type(puldeho_world) :: world
!     integer :: refusal, substeps
!     call world%load(puldeho_grid(4, 1, 1, 1), [100, 100, 100, 100, 100, 100], [0, 0, 100, 200, 100, 0], refusal)
!     if (refusal == puldeho_accepted) call world%zonal(0, 0, [0, 50, 0, 0], refusal, substeps)
!     if (refusal /= puldeho_accepted) print *, "refused: ", puldeho_refusal_text(refusal)
!
! Layers, rows, columns, tracers and cells are counted from 0, and world%air(0) is the first cell's air.
! Each call sets refusal: 0 (puldeho_accepted) or the number of the first refusal that applies. A refused call
! changes nothing. Numbers are 32-bit without a sign in the library, so a negative one is far above every limit
! and is refused. (Only an emitter has two numbers without a limit: any id is taken, and one of negative units
! stands, with 2**31 or more, and refuses every tick with 6.) The bounds lo and hi of a limiter are 64-bit without a
! sign: a negative one is that number plus 2**64, above every ratio. After a refused call NAME, call
! world%why_NAME(.., text) with the same arguments says which cell or column was in the way, and what would help.
! After you wrote into world%air or world%tracers, load them again: other calls are refused with 22 if the cells of
! some tracer do not sum to what its book says.
! docs/GUIDE.md explains grid, units, fluxes and refusals.
module puldeho
  use, intrinsic :: iso_c_binding, only: c_char, c_int, c_int32_t, c_int64_t, c_loc, c_null_char, c_null_ptr, c_ptr, c_size_t
  implicit none
  private

  character(len=*), parameter, public :: puldeho_version = "0.8.0"

  ! the scale of ratios, mismatches and pieces, in which set_limiter takes its bounds: 262144 from version 0.6
  ! on, and 65536 before. Builds whose scales differ may give other amounts
  integer(c_int32_t), parameter, public :: puldeho_scale = 262144
  ! the most air of a cell; the least is 1
  integer(c_int32_t), parameter, public :: puldeho_air_limit = 65535
  ! the most units of a tracer in all cells together
  integer(c_int32_t), parameter, public :: puldeho_total_limit = 268435455
  ! the most units of a tracer that its book has as emitted, or as withdrawn, since the load
  integer(c_int64_t), parameter, public :: puldeho_sum_limit = 4294967295_c_int64_t
  ! the largest size of a flux of a zonal or a long zonal sweep
  integer(c_int32_t), parameter, public :: puldeho_zonal_limit = 1048560
  ! the largest size of a flux of a meridional sweep
  integer(c_int32_t), parameter, public :: puldeho_meridional_limit = 65535
  ! the most substeps of a zonal sweep
  integer(c_int32_t), parameter, public :: puldeho_most_substeps = 16
  ! the largest a of a remap's table
  integer(c_int32_t), parameter, public :: puldeho_table_limit = 2097120
  ! the b of a remap's table that stands for all the air of a column
  integer(c_int32_t), parameter, public :: puldeho_table_scale = 65536
  ! the largest W; the least is 4
  integer(c_int32_t), parameter, public :: puldeho_most_columns = 72
  ! the largest R
  integer(c_int32_t), parameter, public :: puldeho_most_rows = 44
  ! the largest K
  integer(c_int32_t), parameter, public :: puldeho_most_layers = 32
  ! the largest N
  integer(c_int32_t), parameter, public :: puldeho_most_tracers = 8
  ! the most emitters of a tracer that stand at once
  integer(c_int32_t), parameter, public :: puldeho_most_emitters = 16
  ! how many numbers of the ledger each tracer has; tracer t's block starts at t times this number. Later
  ! versions have more
  integer(c_int32_t), parameter, public :: puldeho_ledger_block = 59

  ! The limiters, as set_limiter takes them; section 12 of the guide says when to use which.
  ! van Leer's monotone limiter, which a load gives every tracer: no new highs and lows beyond rounding
  integer(c_int32_t), parameter, public :: puldeho_limiter_present = 1
  ! keeps steeper slopes: amounts never fall below 0, but may rise above all that was near
  integer(c_int32_t), parameter, public :: puldeho_limiter_positive = 2
  ! slopes as steep as keeps the ratio inside a cell between lo and hi; no slope in a cell whose ratio is
  ! outside. A promise for one substep, not for a run
  integer(c_int32_t), parameter, public :: puldeho_limiter_fixed = 3

  integer(c_int32_t), parameter, public :: puldeho_accepted = 0
  ! W, R, K or N is outside its range
  integer(c_int32_t), parameter, public :: puldeho_refusal_grid_range = 1
  ! a lent length is not the grid's
  integer(c_int32_t), parameter, public :: puldeho_refusal_lengths = 2
  ! a cell's air is 0 or above 65,535
  integer(c_int32_t), parameter, public :: puldeho_refusal_air_range = 3
  ! a tracer's total is above 268,435,455
  integer(c_int32_t), parameter, public :: puldeho_refusal_totals = 4
  ! the tracer, cell, layer or row is absent; in add_emitter, remove_emitter, tick and units_a_tick also: in
  ! the ledger some tracer has more than 16 emitters, an emitter in an absent cell, an id twice or a false sum
  integer(c_int32_t), parameter, public :: puldeho_refusal_index = 5
  ! the total would pass 268,435,455, or the tracer's emitted sum 4,294,967,295
  integer(c_int32_t), parameter, public :: puldeho_refusal_emission = 6
  ! the cell has less than the amount, or the tracer's withdrawn sum would pass 4,294,967,295
  integer(c_int32_t), parameter, public :: puldeho_refusal_withdrawal = 7
  ! a flux's size is above 1,048,560 (zonal) or 65,535 (meridional)
  integer(c_int32_t), parameter, public :: puldeho_refusal_fluxes = 8
  ! no count from 1 to 16 serves
  integer(c_int32_t), parameter, public :: puldeho_refusal_zonal = 9
  ! the substep is not allowed
  integer(c_int32_t), parameter, public :: puldeho_refusal_meridional = 10
  ! the first pair is not (0, 0), the last is not (0, 65,536), an a is above 2,097,120, or a b is above 65,536
  integer(c_int32_t), parameter, public :: puldeho_refusal_table = 11
  ! in some column the edges do not rise strictly, or a new layer exceeds 65,535
  integer(c_int32_t), parameter, public :: puldeho_refusal_remap = 12
  ! a flux's size exceeds the row's air
  integer(c_int32_t), parameter, public :: puldeho_refusal_long_flux = 16
  ! air afterwards leaves 1 to 65,535
  integer(c_int32_t), parameter, public :: puldeho_refusal_long_air = 17
  ! the tracer has 16 emitters or already has that id
  integer(c_int32_t), parameter, public :: puldeho_refusal_emitter_added = 18
  ! the tracer has no emitter of that id
  integer(c_int32_t), parameter, public :: puldeho_refusal_emitter_absent = 19
  ! the given count differs from the smallest that serves
  integer(c_int32_t), parameter, public :: puldeho_refusal_given_count = 20
  ! a tracer's limiter is none of 1, 2 and 3, or its lo exceeds its hi
  integer(c_int32_t), parameter, public :: puldeho_refusal_limiters = 21
  ! a tracer's loaded + emitted - withdrawn is not the sum of its cells
  integer(c_int32_t), parameter, public :: puldeho_refusal_books = 22

  ! What cell numbers are for a place that the grid has not; every call refuses it, with 5.
  integer(c_int32_t), parameter, public :: puldeho_no_cell = -1

  public :: puldeho_cells_in_layer, puldeho_cell_number, puldeho_south_cap, puldeho_north_cap
  public :: puldeho_refusal_text, puldeho_refusal_remedy, puldeho_why_load
  public :: puldeho_air_length
  public :: puldeho_tracers_length
  public :: puldeho_ledger_length
  public :: puldeho_zonal_fluxes_length
  public :: puldeho_count_zonal_fluxes_length
  public :: puldeho_zonal_with_count_fluxes_length
  public :: puldeho_long_zonal_fluxes_length
  public :: puldeho_meridional_fluxes_length
  public :: puldeho_remap_table_length
  public :: puldeho_most_remap_steps

  ! The grid: W columns round the globe (4 to 72), R rows from south to north (1 to 44), K layers from the top
  ! down (1 to 32), N tracers (1 to 8).
  type, public :: puldeho_grid
    integer(c_int32_t) :: w = 0, r = 0, k = 0, n = 0
  end type puldeho_grid

  ! The world. It owns its lists; an accepted load makes it, and before that every call is refused, with 1. The
  ! ledger is written by calls alone; tracer t's block starts at t*puldeho_ledger_block. Later versions have longer
  ! blocks, and further components. So there is no structure constructor (the private component sees to that), and
  ! do not extend the type.
  type, public :: puldeho_world
    integer(c_int32_t), private :: made_by_load_only
    type(puldeho_grid) :: grid
    ! the air of every cell; layer k starts at k*C: K*C numbers, the first has the index 0
    integer(c_int32_t), allocatable :: air(:)
    ! the amounts of every tracer; tracer t starts at t*K*C: N*K*C numbers, the first has the index 0
    integer(c_int32_t), allocatable :: tracers(:)
    ! the emitters, the limiter and the book, a block for each tracer: at its place 0 how many emitters stand,
    ! at 1 and 2 the sum of their units, low and high 32 bits, from 3 on id, cell and units of each, at 51 the
    ! limiter, at 52 and 53 its lo and at 54 and 55 its hi, low and high 32 bits, at 56 what was loaded, at 57
    ! what was emitted and at 58 what was withdrawn: N*59 numbers, the first has the index 0
    integer(c_int32_t), allocatable :: ledger(:)
  contains
    procedure :: limiter => world_limiter
    procedure :: book => world_book
    procedure :: load => world_load
    procedure :: emission => world_emission
    procedure :: withdrawal => world_withdrawal
    procedure :: zonal => world_zonal
    procedure :: count_zonal => world_count_zonal
    procedure :: zonal_with_count => world_zonal_with_count
    procedure :: long_zonal => world_long_zonal
    procedure :: meridional => world_meridional
    procedure :: remap => world_remap
    procedure :: total => world_total
    procedure :: cell => world_cell
    procedure :: add_emitter => world_add_emitter
    procedure :: remove_emitter => world_remove_emitter
    procedure :: tick => world_tick
    procedure :: units_a_tick => world_units_a_tick
    procedure :: set_limiter => world_set_limiter
    procedure :: why_emission => world_why_emission
    procedure :: why_withdrawal => world_why_withdrawal
    procedure :: why_zonal => world_why_zonal
    procedure :: why_count_zonal => world_why_count_zonal
    procedure :: why_zonal_with_count => world_why_zonal_with_count
    procedure :: why_long_zonal => world_why_long_zonal
    procedure :: why_meridional => world_why_meridional
    procedure :: why_remap => world_why_remap
    procedure :: why_total => world_why_total
    procedure :: why_cell => world_why_cell
    procedure :: why_add_emitter => world_why_add_emitter
    procedure :: why_remove_emitter => world_why_remove_emitter
    procedure :: why_tick => world_why_tick
    procedure :: why_units_a_tick => world_why_units_a_tick
    procedure :: why_set_limiter => world_why_set_limiter
  end type puldeho_world

  ! struct puldeho_world of the C header.
  type, bind(c) :: c_world
    integer(c_int32_t) :: w, r, k, n
    type(c_ptr) :: air = c_null_ptr
    integer(c_size_t) :: air_length = 0
    type(c_ptr) :: tracers = c_null_ptr
    integer(c_size_t) :: tracers_length = 0
    type(c_ptr) :: ledger = c_null_ptr
    integer(c_size_t) :: ledger_length = 0
    integer(c_int32_t) :: own_ledger(472) = 0
  end type c_world

  ! PULDEHO_WHY_SIZE of the C header.
  integer, parameter :: why_size = 1024

  ! Does nothing. A library of another version, whose functions may take other arguments, has no such name.
  interface
    subroutine puldeho_abi_0_8() bind(c)
    end subroutine puldeho_abi_0_8
  end interface

  ! The proved functions. Each returns refusal * 2**32 + count.
  interface
    function puldeho_raw_load( &
        w, r, k, n, air, air_length, tracers, tracers_length, ledger, ledger_length) &
        bind(c) result(returned)
      import :: c_int32_t, c_int64_t, c_size_t
      integer(c_int32_t), value :: w, r, k, n
      integer(c_int32_t), intent(in) :: air(*)
      integer(c_size_t), value :: air_length
      integer(c_int32_t), intent(in) :: tracers(*)
      integer(c_size_t), value :: tracers_length
      integer(c_int32_t), intent(inout) :: ledger(*)
      integer(c_size_t), value :: ledger_length
      integer(c_int64_t) :: returned
    end function puldeho_raw_load

    function puldeho_raw_emission( &
        w, r, k, n, air, air_length, tracers, tracers_length, ledger, ledger_length, tracer, cell, amount) &
        bind(c) result(returned)
      import :: c_int32_t, c_int64_t, c_size_t
      integer(c_int32_t), value :: w, r, k, n
      integer(c_int32_t), intent(in) :: air(*)
      integer(c_size_t), value :: air_length
      integer(c_int32_t), intent(inout) :: tracers(*)
      integer(c_size_t), value :: tracers_length
      integer(c_int32_t), intent(inout) :: ledger(*)
      integer(c_size_t), value :: ledger_length
      integer(c_int32_t), value :: tracer
      integer(c_int32_t), value :: cell
      integer(c_int32_t), value :: amount
      integer(c_int64_t) :: returned
    end function puldeho_raw_emission

    function puldeho_raw_withdrawal( &
        w, r, k, n, air, air_length, tracers, tracers_length, ledger, ledger_length, tracer, cell, amount) &
        bind(c) result(returned)
      import :: c_int32_t, c_int64_t, c_size_t
      integer(c_int32_t), value :: w, r, k, n
      integer(c_int32_t), intent(in) :: air(*)
      integer(c_size_t), value :: air_length
      integer(c_int32_t), intent(inout) :: tracers(*)
      integer(c_size_t), value :: tracers_length
      integer(c_int32_t), intent(inout) :: ledger(*)
      integer(c_size_t), value :: ledger_length
      integer(c_int32_t), value :: tracer
      integer(c_int32_t), value :: cell
      integer(c_int32_t), value :: amount
      integer(c_int64_t) :: returned
    end function puldeho_raw_withdrawal

    function puldeho_raw_zonal( &
        w, r, k, n, air, air_length, tracers, tracers_length, ledger, ledger_length, layer, row, fluxes, &
        fluxes_length) &
        bind(c) result(returned)
      import :: c_int32_t, c_int64_t, c_size_t
      integer(c_int32_t), value :: w, r, k, n
      integer(c_int32_t), intent(inout) :: air(*)
      integer(c_size_t), value :: air_length
      integer(c_int32_t), intent(inout) :: tracers(*)
      integer(c_size_t), value :: tracers_length
      integer(c_int32_t), intent(in) :: ledger(*)
      integer(c_size_t), value :: ledger_length
      integer(c_int32_t), value :: layer
      integer(c_int32_t), value :: row
      integer(c_int32_t), intent(in) :: fluxes(*)
      integer(c_size_t), value :: fluxes_length
      integer(c_int64_t) :: returned
    end function puldeho_raw_zonal

    function puldeho_raw_count_zonal( &
        w, r, k, n, air, air_length, tracers, tracers_length, ledger, ledger_length, layer, row, fluxes, &
        fluxes_length) &
        bind(c) result(returned)
      import :: c_int32_t, c_int64_t, c_size_t
      integer(c_int32_t), value :: w, r, k, n
      integer(c_int32_t), intent(in) :: air(*)
      integer(c_size_t), value :: air_length
      integer(c_int32_t), intent(in) :: tracers(*)
      integer(c_size_t), value :: tracers_length
      integer(c_int32_t), intent(in) :: ledger(*)
      integer(c_size_t), value :: ledger_length
      integer(c_int32_t), value :: layer
      integer(c_int32_t), value :: row
      integer(c_int32_t), intent(in) :: fluxes(*)
      integer(c_size_t), value :: fluxes_length
      integer(c_int64_t) :: returned
    end function puldeho_raw_count_zonal

    function puldeho_raw_zonal_with_count( &
        w, r, k, n, air, air_length, tracers, tracers_length, ledger, ledger_length, layer, row, given, &
        fluxes, fluxes_length) &
        bind(c) result(returned)
      import :: c_int32_t, c_int64_t, c_size_t
      integer(c_int32_t), value :: w, r, k, n
      integer(c_int32_t), intent(inout) :: air(*)
      integer(c_size_t), value :: air_length
      integer(c_int32_t), intent(inout) :: tracers(*)
      integer(c_size_t), value :: tracers_length
      integer(c_int32_t), intent(in) :: ledger(*)
      integer(c_size_t), value :: ledger_length
      integer(c_int32_t), value :: layer
      integer(c_int32_t), value :: row
      integer(c_int32_t), value :: given
      integer(c_int32_t), intent(in) :: fluxes(*)
      integer(c_size_t), value :: fluxes_length
      integer(c_int64_t) :: returned
    end function puldeho_raw_zonal_with_count

    function puldeho_raw_long_zonal( &
        w, r, k, n, air, air_length, tracers, tracers_length, ledger, ledger_length, layer, row, fluxes, &
        fluxes_length) &
        bind(c) result(returned)
      import :: c_int32_t, c_int64_t, c_size_t
      integer(c_int32_t), value :: w, r, k, n
      integer(c_int32_t), intent(inout) :: air(*)
      integer(c_size_t), value :: air_length
      integer(c_int32_t), intent(inout) :: tracers(*)
      integer(c_size_t), value :: tracers_length
      integer(c_int32_t), intent(in) :: ledger(*)
      integer(c_size_t), value :: ledger_length
      integer(c_int32_t), value :: layer
      integer(c_int32_t), value :: row
      integer(c_int32_t), intent(in) :: fluxes(*)
      integer(c_size_t), value :: fluxes_length
      integer(c_int64_t) :: returned
    end function puldeho_raw_long_zonal

    function puldeho_raw_meridional( &
        w, r, k, n, air, air_length, tracers, tracers_length, ledger, ledger_length, layer, fluxes, &
        fluxes_length) &
        bind(c) result(returned)
      import :: c_int32_t, c_int64_t, c_size_t
      integer(c_int32_t), value :: w, r, k, n
      integer(c_int32_t), intent(inout) :: air(*)
      integer(c_size_t), value :: air_length
      integer(c_int32_t), intent(inout) :: tracers(*)
      integer(c_size_t), value :: tracers_length
      integer(c_int32_t), intent(in) :: ledger(*)
      integer(c_size_t), value :: ledger_length
      integer(c_int32_t), value :: layer
      integer(c_int32_t), intent(in) :: fluxes(*)
      integer(c_size_t), value :: fluxes_length
      integer(c_int64_t) :: returned
    end function puldeho_raw_meridional

    function puldeho_raw_remap( &
        w, r, k, n, air, air_length, tracers, tracers_length, ledger, ledger_length, table, table_length) &
        bind(c) result(returned)
      import :: c_int32_t, c_int64_t, c_size_t
      integer(c_int32_t), value :: w, r, k, n
      integer(c_int32_t), intent(inout) :: air(*)
      integer(c_size_t), value :: air_length
      integer(c_int32_t), intent(inout) :: tracers(*)
      integer(c_size_t), value :: tracers_length
      integer(c_int32_t), intent(in) :: ledger(*)
      integer(c_size_t), value :: ledger_length
      integer(c_int32_t), intent(in) :: table(*)
      integer(c_size_t), value :: table_length
      integer(c_int64_t) :: returned
    end function puldeho_raw_remap

    function puldeho_raw_total( &
        w, r, k, n, air, air_length, tracers, tracers_length, ledger, ledger_length, tracer) &
        bind(c) result(returned)
      import :: c_int32_t, c_int64_t, c_size_t
      integer(c_int32_t), value :: w, r, k, n
      integer(c_int32_t), intent(in) :: air(*)
      integer(c_size_t), value :: air_length
      integer(c_int32_t), intent(in) :: tracers(*)
      integer(c_size_t), value :: tracers_length
      integer(c_int32_t), intent(in) :: ledger(*)
      integer(c_size_t), value :: ledger_length
      integer(c_int32_t), value :: tracer
      integer(c_int64_t) :: returned
    end function puldeho_raw_total

    function puldeho_raw_cell( &
        w, r, k, n, air, air_length, tracers, tracers_length, ledger, ledger_length, tracer, cell) &
        bind(c) result(returned)
      import :: c_int32_t, c_int64_t, c_size_t
      integer(c_int32_t), value :: w, r, k, n
      integer(c_int32_t), intent(in) :: air(*)
      integer(c_size_t), value :: air_length
      integer(c_int32_t), intent(in) :: tracers(*)
      integer(c_size_t), value :: tracers_length
      integer(c_int32_t), intent(in) :: ledger(*)
      integer(c_size_t), value :: ledger_length
      integer(c_int32_t), value :: tracer
      integer(c_int32_t), value :: cell
      integer(c_int64_t) :: returned
    end function puldeho_raw_cell

    function puldeho_raw_add_emitter( &
        w, r, k, n, air, air_length, tracers, tracers_length, ledger, ledger_length, tracer, cell, id, units) &
        bind(c) result(returned)
      import :: c_int32_t, c_int64_t, c_size_t
      integer(c_int32_t), value :: w, r, k, n
      integer(c_int32_t), intent(in) :: air(*)
      integer(c_size_t), value :: air_length
      integer(c_int32_t), intent(in) :: tracers(*)
      integer(c_size_t), value :: tracers_length
      integer(c_int32_t), intent(inout) :: ledger(*)
      integer(c_size_t), value :: ledger_length
      integer(c_int32_t), value :: tracer
      integer(c_int32_t), value :: cell
      integer(c_int32_t), value :: id
      integer(c_int32_t), value :: units
      integer(c_int64_t) :: returned
    end function puldeho_raw_add_emitter

    function puldeho_raw_remove_emitter( &
        w, r, k, n, air, air_length, tracers, tracers_length, ledger, ledger_length, tracer, id) &
        bind(c) result(returned)
      import :: c_int32_t, c_int64_t, c_size_t
      integer(c_int32_t), value :: w, r, k, n
      integer(c_int32_t), intent(in) :: air(*)
      integer(c_size_t), value :: air_length
      integer(c_int32_t), intent(in) :: tracers(*)
      integer(c_size_t), value :: tracers_length
      integer(c_int32_t), intent(inout) :: ledger(*)
      integer(c_size_t), value :: ledger_length
      integer(c_int32_t), value :: tracer
      integer(c_int32_t), value :: id
      integer(c_int64_t) :: returned
    end function puldeho_raw_remove_emitter

    function puldeho_raw_tick( &
        w, r, k, n, air, air_length, tracers, tracers_length, ledger, ledger_length, tracer) &
        bind(c) result(returned)
      import :: c_int32_t, c_int64_t, c_size_t
      integer(c_int32_t), value :: w, r, k, n
      integer(c_int32_t), intent(in) :: air(*)
      integer(c_size_t), value :: air_length
      integer(c_int32_t), intent(inout) :: tracers(*)
      integer(c_size_t), value :: tracers_length
      integer(c_int32_t), intent(inout) :: ledger(*)
      integer(c_size_t), value :: ledger_length
      integer(c_int32_t), value :: tracer
      integer(c_int64_t) :: returned
    end function puldeho_raw_tick

    function puldeho_raw_units_a_tick( &
        w, r, k, n, air, air_length, tracers, tracers_length, ledger, ledger_length, tracer) &
        bind(c) result(returned)
      import :: c_int32_t, c_int64_t, c_size_t
      integer(c_int32_t), value :: w, r, k, n
      integer(c_int32_t), intent(in) :: air(*)
      integer(c_size_t), value :: air_length
      integer(c_int32_t), intent(in) :: tracers(*)
      integer(c_size_t), value :: tracers_length
      integer(c_int32_t), intent(in) :: ledger(*)
      integer(c_size_t), value :: ledger_length
      integer(c_int32_t), value :: tracer
      integer(c_int32_t) :: returned
    end function puldeho_raw_units_a_tick

    function puldeho_raw_units_a_tick_number( &
        w, r, k, n, air, air_length, tracers, tracers_length, ledger, ledger_length, tracer) &
        bind(c) result(returned)
      import :: c_int32_t, c_int64_t, c_size_t
      integer(c_int32_t), value :: w, r, k, n
      integer(c_int32_t), intent(in) :: air(*)
      integer(c_size_t), value :: air_length
      integer(c_int32_t), intent(in) :: tracers(*)
      integer(c_size_t), value :: tracers_length
      integer(c_int32_t), intent(in) :: ledger(*)
      integer(c_size_t), value :: ledger_length
      integer(c_int32_t), value :: tracer
      integer(c_int64_t) :: returned
    end function puldeho_raw_units_a_tick_number

    function puldeho_raw_set_limiter( &
        w, r, k, n, air, air_length, tracers, tracers_length, ledger, ledger_length, tracer, limiter, lo, hi) &
        bind(c) result(returned)
      import :: c_int32_t, c_int64_t, c_size_t
      integer(c_int32_t), value :: w, r, k, n
      integer(c_int32_t), intent(in) :: air(*)
      integer(c_size_t), value :: air_length
      integer(c_int32_t), intent(in) :: tracers(*)
      integer(c_size_t), value :: tracers_length
      integer(c_int32_t), intent(inout) :: ledger(*)
      integer(c_size_t), value :: ledger_length
      integer(c_int32_t), value :: tracer
      integer(c_int32_t), value :: limiter
      integer(c_int64_t), value :: lo
      integer(c_int64_t), value :: hi
      integer(c_int64_t) :: returned
    end function puldeho_raw_set_limiter
  end interface

  ! The functions that say why a call is refused, which are plain C and only read.
  interface
    function c_why_load( &
        world, words, words_size) &
        bind(c, name="puldeho_why_load") result(refusal)
      import :: c_char, c_int, c_int32_t, c_int64_t, c_size_t, c_world
      type(c_world), intent(in) :: world
      character(kind=c_char), intent(out) :: words(*)
      integer(c_size_t), value :: words_size
      integer(c_int) :: refusal
    end function c_why_load

    function c_why_emission( &
        world, tracer, cell, amount, words, words_size) &
        bind(c, name="puldeho_why_emission") result(refusal)
      import :: c_char, c_int, c_int32_t, c_int64_t, c_size_t, c_world
      type(c_world), intent(in) :: world
      integer(c_int32_t), value :: tracer
      integer(c_int32_t), value :: cell
      integer(c_int32_t), value :: amount
      character(kind=c_char), intent(out) :: words(*)
      integer(c_size_t), value :: words_size
      integer(c_int) :: refusal
    end function c_why_emission

    function c_why_withdrawal( &
        world, tracer, cell, amount, words, words_size) &
        bind(c, name="puldeho_why_withdrawal") result(refusal)
      import :: c_char, c_int, c_int32_t, c_int64_t, c_size_t, c_world
      type(c_world), intent(in) :: world
      integer(c_int32_t), value :: tracer
      integer(c_int32_t), value :: cell
      integer(c_int32_t), value :: amount
      character(kind=c_char), intent(out) :: words(*)
      integer(c_size_t), value :: words_size
      integer(c_int) :: refusal
    end function c_why_withdrawal

    function c_why_zonal( &
        world, layer, row, fluxes, fluxes_length, words, words_size) &
        bind(c, name="puldeho_why_zonal") result(refusal)
      import :: c_char, c_int, c_int32_t, c_int64_t, c_size_t, c_world
      type(c_world), intent(in) :: world
      integer(c_int32_t), value :: layer
      integer(c_int32_t), value :: row
      integer(c_int32_t), intent(in) :: fluxes(*)
      integer(c_size_t), value :: fluxes_length
      character(kind=c_char), intent(out) :: words(*)
      integer(c_size_t), value :: words_size
      integer(c_int) :: refusal
    end function c_why_zonal

    function c_why_count_zonal( &
        world, layer, row, fluxes, fluxes_length, words, words_size) &
        bind(c, name="puldeho_why_count_zonal") result(refusal)
      import :: c_char, c_int, c_int32_t, c_int64_t, c_size_t, c_world
      type(c_world), intent(in) :: world
      integer(c_int32_t), value :: layer
      integer(c_int32_t), value :: row
      integer(c_int32_t), intent(in) :: fluxes(*)
      integer(c_size_t), value :: fluxes_length
      character(kind=c_char), intent(out) :: words(*)
      integer(c_size_t), value :: words_size
      integer(c_int) :: refusal
    end function c_why_count_zonal

    function c_why_zonal_with_count( &
        world, layer, row, given, fluxes, fluxes_length, words, words_size) &
        bind(c, name="puldeho_why_zonal_with_count") result(refusal)
      import :: c_char, c_int, c_int32_t, c_int64_t, c_size_t, c_world
      type(c_world), intent(in) :: world
      integer(c_int32_t), value :: layer
      integer(c_int32_t), value :: row
      integer(c_int32_t), value :: given
      integer(c_int32_t), intent(in) :: fluxes(*)
      integer(c_size_t), value :: fluxes_length
      character(kind=c_char), intent(out) :: words(*)
      integer(c_size_t), value :: words_size
      integer(c_int) :: refusal
    end function c_why_zonal_with_count

    function c_why_long_zonal( &
        world, layer, row, fluxes, fluxes_length, words, words_size) &
        bind(c, name="puldeho_why_long_zonal") result(refusal)
      import :: c_char, c_int, c_int32_t, c_int64_t, c_size_t, c_world
      type(c_world), intent(in) :: world
      integer(c_int32_t), value :: layer
      integer(c_int32_t), value :: row
      integer(c_int32_t), intent(in) :: fluxes(*)
      integer(c_size_t), value :: fluxes_length
      character(kind=c_char), intent(out) :: words(*)
      integer(c_size_t), value :: words_size
      integer(c_int) :: refusal
    end function c_why_long_zonal

    function c_why_meridional( &
        world, layer, fluxes, fluxes_length, words, words_size) &
        bind(c, name="puldeho_why_meridional") result(refusal)
      import :: c_char, c_int, c_int32_t, c_int64_t, c_size_t, c_world
      type(c_world), intent(in) :: world
      integer(c_int32_t), value :: layer
      integer(c_int32_t), intent(in) :: fluxes(*)
      integer(c_size_t), value :: fluxes_length
      character(kind=c_char), intent(out) :: words(*)
      integer(c_size_t), value :: words_size
      integer(c_int) :: refusal
    end function c_why_meridional

    function c_why_remap( &
        world, table, table_length, words, words_size) &
        bind(c, name="puldeho_why_remap") result(refusal)
      import :: c_char, c_int, c_int32_t, c_int64_t, c_size_t, c_world
      type(c_world), intent(in) :: world
      integer(c_int32_t), intent(in) :: table(*)
      integer(c_size_t), value :: table_length
      character(kind=c_char), intent(out) :: words(*)
      integer(c_size_t), value :: words_size
      integer(c_int) :: refusal
    end function c_why_remap

    function c_why_total( &
        world, tracer, words, words_size) &
        bind(c, name="puldeho_why_total") result(refusal)
      import :: c_char, c_int, c_int32_t, c_int64_t, c_size_t, c_world
      type(c_world), intent(in) :: world
      integer(c_int32_t), value :: tracer
      character(kind=c_char), intent(out) :: words(*)
      integer(c_size_t), value :: words_size
      integer(c_int) :: refusal
    end function c_why_total

    function c_why_cell( &
        world, tracer, cell, words, words_size) &
        bind(c, name="puldeho_why_cell") result(refusal)
      import :: c_char, c_int, c_int32_t, c_int64_t, c_size_t, c_world
      type(c_world), intent(in) :: world
      integer(c_int32_t), value :: tracer
      integer(c_int32_t), value :: cell
      character(kind=c_char), intent(out) :: words(*)
      integer(c_size_t), value :: words_size
      integer(c_int) :: refusal
    end function c_why_cell

    function c_why_add_emitter( &
        world, tracer, cell, id, units, words, words_size) &
        bind(c, name="puldeho_why_add_emitter") result(refusal)
      import :: c_char, c_int, c_int32_t, c_int64_t, c_size_t, c_world
      type(c_world), intent(in) :: world
      integer(c_int32_t), value :: tracer
      integer(c_int32_t), value :: cell
      integer(c_int32_t), value :: id
      integer(c_int32_t), value :: units
      character(kind=c_char), intent(out) :: words(*)
      integer(c_size_t), value :: words_size
      integer(c_int) :: refusal
    end function c_why_add_emitter

    function c_why_remove_emitter( &
        world, tracer, id, words, words_size) &
        bind(c, name="puldeho_why_remove_emitter") result(refusal)
      import :: c_char, c_int, c_int32_t, c_int64_t, c_size_t, c_world
      type(c_world), intent(in) :: world
      integer(c_int32_t), value :: tracer
      integer(c_int32_t), value :: id
      character(kind=c_char), intent(out) :: words(*)
      integer(c_size_t), value :: words_size
      integer(c_int) :: refusal
    end function c_why_remove_emitter

    function c_why_tick( &
        world, tracer, words, words_size) &
        bind(c, name="puldeho_why_tick") result(refusal)
      import :: c_char, c_int, c_int32_t, c_int64_t, c_size_t, c_world
      type(c_world), intent(in) :: world
      integer(c_int32_t), value :: tracer
      character(kind=c_char), intent(out) :: words(*)
      integer(c_size_t), value :: words_size
      integer(c_int) :: refusal
    end function c_why_tick

    function c_why_units_a_tick( &
        world, tracer, words, words_size) &
        bind(c, name="puldeho_why_units_a_tick") result(refusal)
      import :: c_char, c_int, c_int32_t, c_int64_t, c_size_t, c_world
      type(c_world), intent(in) :: world
      integer(c_int32_t), value :: tracer
      character(kind=c_char), intent(out) :: words(*)
      integer(c_size_t), value :: words_size
      integer(c_int) :: refusal
    end function c_why_units_a_tick

    function c_why_set_limiter( &
        world, tracer, limiter, lo, hi, words, words_size) &
        bind(c, name="puldeho_why_set_limiter") result(refusal)
      import :: c_char, c_int, c_int32_t, c_int64_t, c_size_t, c_world
      type(c_world), intent(in) :: world
      integer(c_int32_t), value :: tracer
      integer(c_int32_t), value :: limiter
      integer(c_int64_t), value :: lo
      integer(c_int64_t), value :: hi
      character(kind=c_char), intent(out) :: words(*)
      integer(c_size_t), value :: words_size
      integer(c_int) :: refusal
    end function c_why_set_limiter
  end interface

contains

  ! Takes copies of the lists as the world from now on, if the load is accepted; else the world stays as it was.
  ! The lists may be the world's own: after you wrote into them, load them again. No emitter stands then, every tracer
  ! has limiter 1, and its book begins anew.
  ! Refusals, in order: 1 2 3 4.
  subroutine world_load(world, grid, air, tracers, refusal)
    class(puldeho_world), intent(inout) :: world
    type(puldeho_grid), intent(in) :: grid
    integer(c_int32_t), intent(in) :: air(:)
    integer(c_int32_t), intent(in) :: tracers(:)
    integer(c_int32_t), intent(out) :: refusal
    type(puldeho_world) :: loaded

    call puldeho_abi_0_8()
    call copy_lists(loaded, grid, air, tracers)
    refusal = refusal_of(puldeho_raw_load( &
        loaded%grid%w, loaded%grid%r, loaded%grid%k, loaded%grid%n, loaded%air, size(loaded%air, &
        kind=c_size_t), loaded%tracers, size(loaded%tracers, kind=c_size_t), loaded%ledger, &
        size(loaded%ledger, kind=c_size_t)))
    if (refusal /= puldeho_accepted) return
    world%made_by_load_only = 1
    world%grid = loaded%grid
    call move_alloc(loaded%air, world%air)
    call move_alloc(loaded%tracers, world%tracers)
    call move_alloc(loaded%ledger, world%ledger)
  end subroutine world_load

  ! An empty world gets the grid and copies of the lists, untested.
  subroutine copy_lists(world, grid, air, tracers)
    type(puldeho_world), intent(inout) :: world
    type(puldeho_grid), intent(in) :: grid
    integer(c_int32_t), intent(in) :: air(:)
    integer(c_int32_t), intent(in) :: tracers(:)

    world%grid = grid
    allocate (world%air(0:size(air) - 1), source=air)
    allocate (world%tracers(0:size(tracers) - 1), source=tracers)
    allocate (world%ledger(0:min(puldeho_ledger_length(grid), 472) - 1), source=0)
  end subroutine copy_lists

  ! Adds amount to one cell of one tracer, and to what its book has as emitted. Cells are numbered over all
  ! layers. Refusals, in order: 1 2 3 4 22 5 6.
  subroutine world_emission(world, tracer, cell, amount, refusal)
    class(puldeho_world), intent(inout) :: world
    integer(c_int32_t), intent(out) :: refusal
    integer(c_int32_t), intent(in) :: tracer
    integer(c_int32_t), intent(in) :: cell
    integer(c_int32_t), intent(in) :: amount
    integer(c_int64_t) :: returned

    refusal = puldeho_refusal_grid_range
    if (.not. has_lists(world)) return
    returned = puldeho_raw_emission( &
        world%grid%w, world%grid%r, world%grid%k, world%grid%n, world%air, size(world%air, kind=c_size_t), &
        world%tracers, size(world%tracers, kind=c_size_t), world%ledger, size(world%ledger, kind=c_size_t), &
        tracer, cell, amount)
    refusal = refusal_of(returned)
  end subroutine world_emission

  ! Takes amount from one cell of one tracer, and adds it to what its book has as withdrawn. Cells are
  ! numbered over all layers. Refusals, in order: 1 2 3 4 22 5 7.
  subroutine world_withdrawal(world, tracer, cell, amount, refusal)
    class(puldeho_world), intent(inout) :: world
    integer(c_int32_t), intent(out) :: refusal
    integer(c_int32_t), intent(in) :: tracer
    integer(c_int32_t), intent(in) :: cell
    integer(c_int32_t), intent(in) :: amount
    integer(c_int64_t) :: returned

    refusal = puldeho_refusal_grid_range
    if (.not. has_lists(world)) return
    returned = puldeho_raw_withdrawal( &
        world%grid%w, world%grid%r, world%grid%k, world%grid%n, world%air, size(world%air, kind=c_size_t), &
        world%tracers, size(world%tracers, kind=c_size_t), world%ledger, size(world%ledger, kind=c_size_t), &
        tracer, cell, amount)
    refusal = refusal_of(returned)
  end subroutine world_withdrawal

  ! Sweeps one row of one layer by W fluxes, positive eastward. Refusals, in order: 1 2 3 4 21 22 5 8 9.
  ! substeps: the number of substeps, 1 to 16.
  subroutine world_zonal(world, layer, row, fluxes, refusal, substeps)
    class(puldeho_world), intent(inout) :: world
    integer(c_int32_t), intent(out) :: refusal
    integer(c_int32_t), intent(in) :: layer
    integer(c_int32_t), intent(in) :: row
    integer(c_int32_t), intent(in) :: fluxes(:)
    integer(c_int32_t), intent(out), optional :: substeps
    integer(c_int64_t) :: returned

    refusal = puldeho_refusal_grid_range
    if (present(substeps)) substeps = 0
    if (.not. has_lists(world)) return
    returned = puldeho_raw_zonal( &
        world%grid%w, world%grid%r, world%grid%k, world%grid%n, world%air, size(world%air, kind=c_size_t), &
        world%tracers, size(world%tracers, kind=c_size_t), world%ledger, size(world%ledger, kind=c_size_t), &
        layer, row, fluxes, size(fluxes, kind=c_size_t))
    refusal = refusal_of(returned)
    if (present(substeps)) substeps = count_of(returned)
  end subroutine world_zonal

  ! Counts the substeps of a zonal sweep of one row of one layer by W fluxes, positive eastward, before it is
  ! made, to be seen and then given to zonal_with_count. Refusals, in order: 1 2 3 4 21 22 5 8 9.
  ! substeps: the number of substeps that the sweep takes, 1 to 16.
  subroutine world_count_zonal(world, layer, row, fluxes, refusal, substeps)
    class(puldeho_world), intent(in) :: world
    integer(c_int32_t), intent(out) :: refusal
    integer(c_int32_t), intent(in) :: layer
    integer(c_int32_t), intent(in) :: row
    integer(c_int32_t), intent(in) :: fluxes(:)
    integer(c_int32_t), intent(out), optional :: substeps
    integer(c_int64_t) :: returned

    refusal = puldeho_refusal_grid_range
    if (present(substeps)) substeps = 0
    if (.not. has_lists(world)) return
    returned = puldeho_raw_count_zonal( &
        world%grid%w, world%grid%r, world%grid%k, world%grid%n, world%air, size(world%air, kind=c_size_t), &
        world%tracers, size(world%tracers, kind=c_size_t), world%ledger, size(world%ledger, kind=c_size_t), &
        layer, row, fluxes, size(fluxes, kind=c_size_t))
    refusal = refusal_of(returned)
    if (present(substeps)) substeps = count_of(returned)
  end subroutine world_count_zonal

  ! Makes the sweep of zonal, if the given count is the one that count_zonal gives for the same layer, row and
  ! fluxes now; with any other count it is refused with 20. Refusals, in order: 1 2 3 4 21 22 5 8 9 20.
  ! substeps: the given count.
  subroutine world_zonal_with_count(world, layer, row, given, fluxes, refusal, substeps)
    class(puldeho_world), intent(inout) :: world
    integer(c_int32_t), intent(out) :: refusal
    integer(c_int32_t), intent(in) :: layer
    integer(c_int32_t), intent(in) :: row
    integer(c_int32_t), intent(in) :: given
    integer(c_int32_t), intent(in) :: fluxes(:)
    integer(c_int32_t), intent(out), optional :: substeps
    integer(c_int64_t) :: returned

    refusal = puldeho_refusal_grid_range
    if (present(substeps)) substeps = 0
    if (.not. has_lists(world)) return
    returned = puldeho_raw_zonal_with_count( &
        world%grid%w, world%grid%r, world%grid%k, world%grid%n, world%air, size(world%air, kind=c_size_t), &
        world%tracers, size(world%tracers, kind=c_size_t), world%ledger, size(world%ledger, kind=c_size_t), &
        layer, row, given, fluxes, size(fluxes, kind=c_size_t))
    refusal = refusal_of(returned)
    if (present(substeps)) substeps = count_of(returned)
  end subroutine world_zonal_with_count

  ! Sweeps one row of one layer by W fluxes, positive eastward, without substeps: a face takes whole cells and
  ! then a part of the next. Its amounts are not those of zonal. Refusals, in order: 1 2 3 4 21 22 5 8 16 17.
  subroutine world_long_zonal(world, layer, row, fluxes, refusal)
    class(puldeho_world), intent(inout) :: world
    integer(c_int32_t), intent(out) :: refusal
    integer(c_int32_t), intent(in) :: layer
    integer(c_int32_t), intent(in) :: row
    integer(c_int32_t), intent(in) :: fluxes(:)
    integer(c_int64_t) :: returned

    refusal = puldeho_refusal_grid_range
    if (.not. has_lists(world)) return
    returned = puldeho_raw_long_zonal( &
        world%grid%w, world%grid%r, world%grid%k, world%grid%n, world%air, size(world%air, kind=c_size_t), &
        world%tracers, size(world%tracers, kind=c_size_t), world%ledger, size(world%ledger, kind=c_size_t), &
        layer, row, fluxes, size(fluxes, kind=c_size_t))
    refusal = refusal_of(returned)
  end subroutine world_long_zonal

  ! Sweeps one layer by W*(R + 1) fluxes, positive northward. Refusals, in order: 1 2 3 4 21 22 5 8 10.
  ! substeps: the number of substeps, 1.
  subroutine world_meridional(world, layer, fluxes, refusal, substeps)
    class(puldeho_world), intent(inout) :: world
    integer(c_int32_t), intent(out) :: refusal
    integer(c_int32_t), intent(in) :: layer
    integer(c_int32_t), intent(in) :: fluxes(:)
    integer(c_int32_t), intent(out), optional :: substeps
    integer(c_int64_t) :: returned

    refusal = puldeho_refusal_grid_range
    if (present(substeps)) substeps = 0
    if (.not. has_lists(world)) return
    returned = puldeho_raw_meridional( &
        world%grid%w, world%grid%r, world%grid%k, world%grid%n, world%air, size(world%air, kind=c_size_t), &
        world%tracers, size(world%tracers, kind=c_size_t), world%ledger, size(world%ledger, kind=c_size_t), &
        layer, fluxes, size(fluxes, kind=c_size_t))
    refusal = refusal_of(returned)
    if (present(substeps)) substeps = count_of(returned)
  end subroutine world_meridional

  ! Remaps all columns to the edges of a table of K + 1 pairs a, b, lent as 2*(K + 1) numbers. Makes at most
  ! 2*K steps for each column and tracer, in all at most the grid's most_remap_steps. Section 6 of the guide
  ! writes a count out by hand. Refusals, in order: 1 2 3 4 21 22 11 12.
  ! overlaps: exactly the number of pairs of an old and a new layer that share some air, summed over columns.
  subroutine world_remap(world, table, refusal, overlaps)
    class(puldeho_world), intent(inout) :: world
    integer(c_int32_t), intent(out) :: refusal
    integer(c_int32_t), intent(in) :: table(:)
    integer(c_int32_t), intent(out), optional :: overlaps
    integer(c_int64_t) :: returned

    refusal = puldeho_refusal_grid_range
    if (present(overlaps)) overlaps = 0
    if (.not. has_lists(world)) return
    returned = puldeho_raw_remap( &
        world%grid%w, world%grid%r, world%grid%k, world%grid%n, world%air, size(world%air, kind=c_size_t), &
        world%tracers, size(world%tracers, kind=c_size_t), world%ledger, size(world%ledger, kind=c_size_t), &
        table, size(table, kind=c_size_t))
    refusal = refusal_of(returned)
    if (present(overlaps)) overlaps = count_of(returned)
  end subroutine world_remap

  ! Reads the total of one tracer. As every call but a load it tests the books of all tracers: if it is
  ! accepted, the total of each is what its book has as loaded + emitted - withdrawn. Refusals, in order: 1 2
  ! 3 4 22 5.
  ! units: the total of the tracer.
  subroutine world_total(world, tracer, refusal, units)
    class(puldeho_world), intent(in) :: world
    integer(c_int32_t), intent(out) :: refusal
    integer(c_int32_t), intent(in) :: tracer
    integer(c_int32_t), intent(out), optional :: units
    integer(c_int64_t) :: returned

    refusal = puldeho_refusal_grid_range
    if (present(units)) units = 0
    if (.not. has_lists(world)) return
    returned = puldeho_raw_total( &
        world%grid%w, world%grid%r, world%grid%k, world%grid%n, world%air, size(world%air, kind=c_size_t), &
        world%tracers, size(world%tracers, kind=c_size_t), world%ledger, size(world%ledger, kind=c_size_t), &
        tracer)
    refusal = refusal_of(returned)
    if (present(units)) units = count_of(returned)
  end subroutine world_total

  ! Reads one cell of one tracer. Cells are numbered over all layers. Refusals, in order: 1 2 3 4 22 5.
  ! units: the amount in the cell.
  subroutine world_cell(world, tracer, cell, refusal, units)
    class(puldeho_world), intent(in) :: world
    integer(c_int32_t), intent(out) :: refusal
    integer(c_int32_t), intent(in) :: tracer
    integer(c_int32_t), intent(in) :: cell
    integer(c_int32_t), intent(out), optional :: units
    integer(c_int64_t) :: returned

    refusal = puldeho_refusal_grid_range
    if (present(units)) units = 0
    if (.not. has_lists(world)) return
    returned = puldeho_raw_cell( &
        world%grid%w, world%grid%r, world%grid%k, world%grid%n, world%air, size(world%air, kind=c_size_t), &
        world%tracers, size(world%tracers, kind=c_size_t), world%ledger, size(world%ledger, kind=c_size_t), &
        tracer, cell)
    refusal = refusal_of(returned)
    if (present(units)) units = count_of(returned)
  end subroutine world_cell

  ! Lets an emitter stand for one tracer: in each tick it gives so many units to the cell. Any number is an
  ! id, and each tracer has its own. Cells are numbered over all layers. Refusals, in order: 1 2 3 4 22 5 18.
  subroutine world_add_emitter(world, tracer, cell, id, units, refusal)
    class(puldeho_world), intent(inout) :: world
    integer(c_int32_t), intent(out) :: refusal
    integer(c_int32_t), intent(in) :: tracer
    integer(c_int32_t), intent(in) :: cell
    integer(c_int32_t), intent(in) :: id
    integer(c_int32_t), intent(in) :: units
    integer(c_int64_t) :: returned

    refusal = puldeho_refusal_grid_range
    if (.not. has_lists(world)) return
    returned = puldeho_raw_add_emitter( &
        world%grid%w, world%grid%r, world%grid%k, world%grid%n, world%air, size(world%air, kind=c_size_t), &
        world%tracers, size(world%tracers, kind=c_size_t), world%ledger, size(world%ledger, kind=c_size_t), &
        tracer, cell, id, units)
    refusal = refusal_of(returned)
  end subroutine world_add_emitter

  ! Removes the emitter that one tracer has under the id. The tracer's last emitter takes its place in the
  ! ledger. Refusals, in order: 1 2 3 4 22 5 19.
  subroutine world_remove_emitter(world, tracer, id, refusal)
    class(puldeho_world), intent(inout) :: world
    integer(c_int32_t), intent(out) :: refusal
    integer(c_int32_t), intent(in) :: tracer
    integer(c_int32_t), intent(in) :: id
    integer(c_int64_t) :: returned

    refusal = puldeho_refusal_grid_range
    if (.not. has_lists(world)) return
    returned = puldeho_raw_remove_emitter( &
        world%grid%w, world%grid%r, world%grid%k, world%grid%n, world%air, size(world%air, kind=c_size_t), &
        world%tracers, size(world%tracers, kind=c_size_t), world%ledger, size(world%ledger, kind=c_size_t), &
        tracer, id)
    refusal = refusal_of(returned)
  end subroutine world_remove_emitter

  ! Adds the units of every emitter of one tracer to its cell, and to what its book has as emitted, or, if it
  ! is refused, of none. Refusals, in order: 1 2 3 4 22 5 6.
  subroutine world_tick(world, tracer, refusal)
    class(puldeho_world), intent(inout) :: world
    integer(c_int32_t), intent(out) :: refusal
    integer(c_int32_t), intent(in) :: tracer
    integer(c_int64_t) :: returned

    refusal = puldeho_refusal_grid_range
    if (.not. has_lists(world)) return
    returned = puldeho_raw_tick( &
        world%grid%w, world%grid%r, world%grid%k, world%grid%n, world%air, size(world%air, kind=c_size_t), &
        world%tracers, size(world%tracers, kind=c_size_t), world%ledger, size(world%ledger, kind=c_size_t), &
        tracer)
    refusal = refusal_of(returned)
  end subroutine world_tick

  ! Reads how much a tick of one tracer emits. Refusals, in order: 1 2 3 4 22 5.
  ! units: the units that the tracer's emitters give in a tick.
  subroutine world_units_a_tick(world, tracer, refusal, units)
    class(puldeho_world), intent(in) :: world
    integer(c_int32_t), intent(out) :: refusal
    integer(c_int32_t), intent(in) :: tracer
    integer(c_int64_t), intent(out), optional :: units

    refusal = puldeho_refusal_grid_range
    if (present(units)) units = 0
    if (.not. has_lists(world)) return
    refusal = puldeho_raw_units_a_tick( &
        world%grid%w, world%grid%r, world%grid%k, world%grid%n, world%air, size(world%air, kind=c_size_t), &
        world%tracers, size(world%tracers, kind=c_size_t), world%ledger, size(world%ledger, kind=c_size_t), &
        tracer)
    if (present(units)) units = puldeho_raw_units_a_tick_number( &
        world%grid%w, world%grid%r, world%grid%k, world%grid%n, world%air, size(world%air, kind=c_size_t), &
        world%tracers, size(world%tracers, kind=c_size_t), world%ledger, size(world%ledger, kind=c_size_t), &
        tracer)
  end subroutine world_units_a_tick

  ! Chooses the limiter of one tracer: 1 the present one, 2 the positive one, 3 the fixed one between lo and
  ! hi, which are mixing ratios (units of gas for one of air) times the scale, 262144. The bounds are stored
  ! with every limiter, and only 3 reads them; give 0 and 0 with 1 and 2. Holds until the next set_limiter of
  ! this tracer or the next load. Refusals, in order: 1 2 3 4 22 5 21.
  subroutine world_set_limiter(world, tracer, limiter, lo, hi, refusal)
    class(puldeho_world), intent(inout) :: world
    integer(c_int32_t), intent(out) :: refusal
    integer(c_int32_t), intent(in) :: tracer
    integer(c_int32_t), intent(in) :: limiter
    integer(c_int64_t), intent(in) :: lo
    integer(c_int64_t), intent(in) :: hi
    integer(c_int64_t) :: returned

    refusal = puldeho_refusal_grid_range
    if (.not. has_lists(world)) return
    returned = puldeho_raw_set_limiter( &
        world%grid%w, world%grid%r, world%grid%k, world%grid%n, world%air, size(world%air, kind=c_size_t), &
        world%tracers, size(world%tracers, kind=c_size_t), world%ledger, size(world%ledger, kind=c_size_t), &
        tracer, limiter, lo, hi)
    refusal = refusal_of(returned)
  end subroutine world_set_limiter

  ! Why the call emission is refused in this world, in words; ask after the refusal, before the world changes.
  subroutine world_why_emission(world, tracer, cell, amount, text)
    class(puldeho_world), intent(in), target :: world
    integer(c_int32_t), intent(in) :: tracer
    integer(c_int32_t), intent(in) :: cell
    integer(c_int32_t), intent(in) :: amount
    character(len=:), allocatable, intent(out) :: text
    character(kind=c_char) :: words(why_size)
    integer(c_int) :: refusal

    refusal = c_why_emission( &
        world_of(world), tracer, cell, amount, words, int(why_size, c_size_t))
    text = text_of(words)
  end subroutine world_why_emission

  ! Why the call withdrawal is refused in this world, in words; ask after the refusal, before the world changes.
  subroutine world_why_withdrawal(world, tracer, cell, amount, text)
    class(puldeho_world), intent(in), target :: world
    integer(c_int32_t), intent(in) :: tracer
    integer(c_int32_t), intent(in) :: cell
    integer(c_int32_t), intent(in) :: amount
    character(len=:), allocatable, intent(out) :: text
    character(kind=c_char) :: words(why_size)
    integer(c_int) :: refusal

    refusal = c_why_withdrawal( &
        world_of(world), tracer, cell, amount, words, int(why_size, c_size_t))
    text = text_of(words)
  end subroutine world_why_withdrawal

  ! Why the call zonal is refused in this world, in words; ask after the refusal, before the world changes.
  subroutine world_why_zonal(world, layer, row, fluxes, text)
    class(puldeho_world), intent(in), target :: world
    integer(c_int32_t), intent(in) :: layer
    integer(c_int32_t), intent(in) :: row
    integer(c_int32_t), intent(in) :: fluxes(:)
    character(len=:), allocatable, intent(out) :: text
    character(kind=c_char) :: words(why_size)
    integer(c_int) :: refusal

    refusal = c_why_zonal( &
        world_of(world), layer, row, fluxes, size(fluxes, kind=c_size_t), words, int(why_size, c_size_t))
    text = text_of(words)
  end subroutine world_why_zonal

  ! Why the call count_zonal is refused in this world, in words; ask after the refusal, before the world changes.
  subroutine world_why_count_zonal(world, layer, row, fluxes, text)
    class(puldeho_world), intent(in), target :: world
    integer(c_int32_t), intent(in) :: layer
    integer(c_int32_t), intent(in) :: row
    integer(c_int32_t), intent(in) :: fluxes(:)
    character(len=:), allocatable, intent(out) :: text
    character(kind=c_char) :: words(why_size)
    integer(c_int) :: refusal

    refusal = c_why_count_zonal( &
        world_of(world), layer, row, fluxes, size(fluxes, kind=c_size_t), words, int(why_size, c_size_t))
    text = text_of(words)
  end subroutine world_why_count_zonal

  ! Why the call zonal_with_count is refused in this world, in words; ask after the refusal, before the world changes.
  subroutine world_why_zonal_with_count(world, layer, row, given, fluxes, text)
    class(puldeho_world), intent(in), target :: world
    integer(c_int32_t), intent(in) :: layer
    integer(c_int32_t), intent(in) :: row
    integer(c_int32_t), intent(in) :: given
    integer(c_int32_t), intent(in) :: fluxes(:)
    character(len=:), allocatable, intent(out) :: text
    character(kind=c_char) :: words(why_size)
    integer(c_int) :: refusal

    refusal = c_why_zonal_with_count( &
        world_of(world), layer, row, given, fluxes, size(fluxes, kind=c_size_t), words, int(why_size, &
        c_size_t))
    text = text_of(words)
  end subroutine world_why_zonal_with_count

  ! Why the call long_zonal is refused in this world, in words; ask after the refusal, before the world changes.
  subroutine world_why_long_zonal(world, layer, row, fluxes, text)
    class(puldeho_world), intent(in), target :: world
    integer(c_int32_t), intent(in) :: layer
    integer(c_int32_t), intent(in) :: row
    integer(c_int32_t), intent(in) :: fluxes(:)
    character(len=:), allocatable, intent(out) :: text
    character(kind=c_char) :: words(why_size)
    integer(c_int) :: refusal

    refusal = c_why_long_zonal( &
        world_of(world), layer, row, fluxes, size(fluxes, kind=c_size_t), words, int(why_size, c_size_t))
    text = text_of(words)
  end subroutine world_why_long_zonal

  ! Why the call meridional is refused in this world, in words; ask after the refusal, before the world changes.
  subroutine world_why_meridional(world, layer, fluxes, text)
    class(puldeho_world), intent(in), target :: world
    integer(c_int32_t), intent(in) :: layer
    integer(c_int32_t), intent(in) :: fluxes(:)
    character(len=:), allocatable, intent(out) :: text
    character(kind=c_char) :: words(why_size)
    integer(c_int) :: refusal

    refusal = c_why_meridional( &
        world_of(world), layer, fluxes, size(fluxes, kind=c_size_t), words, int(why_size, c_size_t))
    text = text_of(words)
  end subroutine world_why_meridional

  ! Why the call remap is refused in this world, in words; ask after the refusal, before the world changes.
  subroutine world_why_remap(world, table, text)
    class(puldeho_world), intent(in), target :: world
    integer(c_int32_t), intent(in) :: table(:)
    character(len=:), allocatable, intent(out) :: text
    character(kind=c_char) :: words(why_size)
    integer(c_int) :: refusal

    refusal = c_why_remap( &
        world_of(world), table, size(table, kind=c_size_t), words, int(why_size, c_size_t))
    text = text_of(words)
  end subroutine world_why_remap

  ! Why the call total is refused in this world, in words; ask after the refusal, before the world changes.
  subroutine world_why_total(world, tracer, text)
    class(puldeho_world), intent(in), target :: world
    integer(c_int32_t), intent(in) :: tracer
    character(len=:), allocatable, intent(out) :: text
    character(kind=c_char) :: words(why_size)
    integer(c_int) :: refusal

    refusal = c_why_total( &
        world_of(world), tracer, words, int(why_size, c_size_t))
    text = text_of(words)
  end subroutine world_why_total

  ! Why the call cell is refused in this world, in words; ask after the refusal, before the world changes.
  subroutine world_why_cell(world, tracer, cell, text)
    class(puldeho_world), intent(in), target :: world
    integer(c_int32_t), intent(in) :: tracer
    integer(c_int32_t), intent(in) :: cell
    character(len=:), allocatable, intent(out) :: text
    character(kind=c_char) :: words(why_size)
    integer(c_int) :: refusal

    refusal = c_why_cell( &
        world_of(world), tracer, cell, words, int(why_size, c_size_t))
    text = text_of(words)
  end subroutine world_why_cell

  ! Why the call add_emitter is refused in this world, in words; ask after the refusal, before the world changes.
  subroutine world_why_add_emitter(world, tracer, cell, id, units, text)
    class(puldeho_world), intent(in), target :: world
    integer(c_int32_t), intent(in) :: tracer
    integer(c_int32_t), intent(in) :: cell
    integer(c_int32_t), intent(in) :: id
    integer(c_int32_t), intent(in) :: units
    character(len=:), allocatable, intent(out) :: text
    character(kind=c_char) :: words(why_size)
    integer(c_int) :: refusal

    refusal = c_why_add_emitter( &
        world_of(world), tracer, cell, id, units, words, int(why_size, c_size_t))
    text = text_of(words)
  end subroutine world_why_add_emitter

  ! Why the call remove_emitter is refused in this world, in words; ask after the refusal, before the world changes.
  subroutine world_why_remove_emitter(world, tracer, id, text)
    class(puldeho_world), intent(in), target :: world
    integer(c_int32_t), intent(in) :: tracer
    integer(c_int32_t), intent(in) :: id
    character(len=:), allocatable, intent(out) :: text
    character(kind=c_char) :: words(why_size)
    integer(c_int) :: refusal

    refusal = c_why_remove_emitter( &
        world_of(world), tracer, id, words, int(why_size, c_size_t))
    text = text_of(words)
  end subroutine world_why_remove_emitter

  ! Why the call tick is refused in this world, in words; ask after the refusal, before the world changes.
  subroutine world_why_tick(world, tracer, text)
    class(puldeho_world), intent(in), target :: world
    integer(c_int32_t), intent(in) :: tracer
    character(len=:), allocatable, intent(out) :: text
    character(kind=c_char) :: words(why_size)
    integer(c_int) :: refusal

    refusal = c_why_tick( &
        world_of(world), tracer, words, int(why_size, c_size_t))
    text = text_of(words)
  end subroutine world_why_tick

  ! Why the call units_a_tick is refused in this world, in words; ask after the refusal, before the world changes.
  subroutine world_why_units_a_tick(world, tracer, text)
    class(puldeho_world), intent(in), target :: world
    integer(c_int32_t), intent(in) :: tracer
    character(len=:), allocatable, intent(out) :: text
    character(kind=c_char) :: words(why_size)
    integer(c_int) :: refusal

    refusal = c_why_units_a_tick( &
        world_of(world), tracer, words, int(why_size, c_size_t))
    text = text_of(words)
  end subroutine world_why_units_a_tick

  ! Why the call set_limiter is refused in this world, in words; ask after the refusal, before the world changes.
  subroutine world_why_set_limiter(world, tracer, limiter, lo, hi, text)
    class(puldeho_world), intent(in), target :: world
    integer(c_int32_t), intent(in) :: tracer
    integer(c_int32_t), intent(in) :: limiter
    integer(c_int64_t), intent(in) :: lo
    integer(c_int64_t), intent(in) :: hi
    character(len=:), allocatable, intent(out) :: text
    character(kind=c_char) :: words(why_size)
    integer(c_int) :: refusal

    refusal = c_why_set_limiter( &
        world_of(world), tracer, limiter, lo, hi, words, int(why_size, c_size_t))
    text = text_of(words)
  end subroutine world_why_set_limiter

  ! The limiter that a tracer has now: its number, and its bounds as set_limiter takes them. All are 0 where the
  ! world was never loaded, or has no such tracer.
  subroutine world_limiter(world, tracer, number, lo, hi)
    class(puldeho_world), intent(in) :: world
    integer(c_int32_t), intent(in) :: tracer
    integer(c_int32_t), intent(out) :: number
    integer(c_int64_t), intent(out) :: lo, hi
    integer(c_int32_t) :: place

    number = 0
    lo = 0
    hi = 0
    if (.not. has_lists(world) .or. tracer < 0 .or. tracer >= world%grid%n) return
    place = tracer*puldeho_ledger_block + 51
    number = world%ledger(place)
    lo = wide_of(world%ledger(place + 1:place + 2))
    hi = wide_of(world%ledger(place + 3:place + 4))
  end subroutine world_limiter

  ! The book of a tracer, in units: what the load found in all its cells, and what was emitted (ticks included) and
  ! withdrawn since then. All are -1 where the world was never loaded, or has no such tracer. Reading does not test
  ! it; if a call of total for any tracer is accepted, every tracer's total is loaded + emitted - withdrawn, and if
  ! not, it is refused with 22. The sums do not fit 32 bits with a sign, as which they stand in the ledger.
  subroutine world_book(world, tracer, loaded, emitted, withdrawn)
    class(puldeho_world), intent(in) :: world
    integer(c_int32_t), intent(in) :: tracer
    integer(c_int64_t), intent(out) :: loaded, emitted, withdrawn
    integer(c_int32_t) :: place

    loaded = -1
    emitted = -1
    withdrawn = -1
    if (.not. has_lists(world) .or. tracer < 0 .or. tracer >= world%grid%n) return
    place = tracer*puldeho_ledger_block + 56
    loaded = ibits(int(world%ledger(place), c_int64_t), 0, 32)
    emitted = ibits(int(world%ledger(place + 1), c_int64_t), 0, 32)
    withdrawn = ibits(int(world%ledger(place + 2), c_int64_t), 0, 32)
  end subroutine world_book

  ! A number of 64 bits from its low and its high half.
  pure function wide_of(halves) result(wide)
    integer(c_int32_t), intent(in) :: halves(2)
    integer(c_int64_t) :: wide

    wide = ior(ishft(int(halves(2), c_int64_t), 32), ibits(int(halves(1), c_int64_t), 0, 32))
  end function wide_of

  ! Why a load of these lists is refused, in words.
  subroutine puldeho_why_load(grid, air, tracers, text)
    type(puldeho_grid), intent(in) :: grid
    integer(c_int32_t), intent(in) :: air(:)
    integer(c_int32_t), intent(in) :: tracers(:)
    character(len=:), allocatable, intent(out) :: text
    type(puldeho_world), target :: world
    character(kind=c_char) :: words(why_size)
    integer(c_int) :: refusal

    call copy_lists(world, grid, air, tracers)
    refusal = c_why_load(world_of(world), words, int(why_size, c_size_t))
    text = text_of(words)
  end subroutine puldeho_why_load

  ! The world as C has it.
  function world_of(world) result(lent)
    class(puldeho_world), intent(in), target :: world
    type(c_world) :: lent

    lent%w = world%grid%w
    lent%r = world%grid%r
    lent%k = world%grid%k
    lent%n = world%grid%n
    if (.not. has_lists(world)) return
    lent%air = c_loc(world%air)
    lent%air_length = size(world%air, kind=c_size_t)
    lent%tracers = c_loc(world%tracers)
    lent%tracers_length = size(world%tracers, kind=c_size_t)
    lent%ledger = c_loc(world%ledger)
    lent%ledger_length = size(world%ledger, kind=c_size_t)
  end function world_of

  ! A text of C, which ends with a null character.
  pure function text_of(words) result(text)
    character(kind=c_char), intent(in) :: words(:)
    character(len=:), allocatable :: text
    integer :: i, length

    length = 0
    do while (words(length + 1) /= c_null_char)
      length = length + 1
    end do
    allocate (character(len=length) :: text)
    do i = 1, length
      text(i:i) = words(i)
    end do
  end function text_of

  ! Whether the world was ever loaded; before that it has neither grid nor lists.
  pure function has_lists(world) result(has)
    class(puldeho_world), intent(in) :: world
    logical :: has

    has = allocated(world%air) .and. allocated(world%tracers) .and. allocated(world%ledger)
  end function has_lists

  pure function refusal_of(returned) result(refusal)
    integer(c_int64_t), intent(in) :: returned
    integer(c_int32_t) :: refusal

    refusal = int(ishft(returned, -32), c_int32_t)
  end function refusal_of

  pure function count_of(returned) result(count)
    integer(c_int64_t), intent(in) :: returned
    integer(c_int32_t) :: count

    count = int(ibits(returned, 0, 32), c_int32_t)
  end function count_of

  ! C, the cells of a layer: its R*W cells and the two caps.
  pure function puldeho_cells_in_layer(grid) result(cells)
    type(puldeho_grid), intent(in) :: grid
    integer(c_int32_t) :: cells

    cells = 2 + grid%r*grid%w
  end function puldeho_cells_in_layer

  ! The number of a cell over all layers: layer*C + 1 + row*W + column.
  pure function puldeho_cell_number(grid, layer, row, column) result(cell)
    type(puldeho_grid), intent(in) :: grid
    integer(c_int32_t), intent(in) :: layer, row, column
    integer(c_int32_t) :: cell

    cell = puldeho_no_cell
    if (layer < 0 .or. layer >= grid%k .or. row < 0 .or. row >= grid%r .or. column < 0 .or. column >= grid%w) return
    cell = layer*puldeho_cells_in_layer(grid) + 1 + row*grid%w + column
  end function puldeho_cell_number

  ! The number of a layer's south cap: layer*C.
  pure function puldeho_south_cap(grid, layer) result(cell)
    type(puldeho_grid), intent(in) :: grid
    integer(c_int32_t), intent(in) :: layer
    integer(c_int32_t) :: cell

    cell = puldeho_no_cell
    if (layer >= 0 .and. layer < grid%k) cell = layer*puldeho_cells_in_layer(grid)
  end function puldeho_south_cap

  ! The number of a layer's north cap: layer*C + C - 1.
  pure function puldeho_north_cap(grid, layer) result(cell)
    type(puldeho_grid), intent(in) :: grid
    integer(c_int32_t), intent(in) :: layer
    integer(c_int32_t) :: cell

    cell = puldeho_no_cell
    if (layer >= 0 .and. layer < grid%k) cell = (layer + 1)*puldeho_cells_in_layer(grid) - 1
  end function puldeho_north_cap

  ! The length of air: K*C. In it: the air of every cell; layer k starts at k*C.
  pure function puldeho_air_length(grid) result(length)
    type(puldeho_grid), intent(in) :: grid
    integer(c_int32_t) :: length

    length = grid%k*puldeho_cells_in_layer(grid)
  end function puldeho_air_length

  ! The length of tracers: N*K*C. In it: the amounts of every tracer; tracer t starts at t*K*C.
  pure function puldeho_tracers_length(grid) result(length)
    type(puldeho_grid), intent(in) :: grid
    integer(c_int32_t) :: length

    length = grid%n*grid%k*puldeho_cells_in_layer(grid)
  end function puldeho_tracers_length

  ! The length of ledger: N*59. In it: the emitters, the limiter and the book, a block for each tracer: at its
  ! place 0 how many emitters stand, at 1 and 2 the sum of their units, low and high 32 bits, from 3 on id,
  ! cell and units of each, at 51 the limiter, at 52 and 53 its lo and at 54 and 55 its hi, low and high 32
  ! bits, at 56 what was loaded, at 57 what was emitted and at 58 what was withdrawn.
  pure function puldeho_ledger_length(grid) result(length)
    type(puldeho_grid), intent(in) :: grid
    integer(c_int32_t) :: length

    length = grid%n*59
  end function puldeho_ledger_length

  ! The length of fluxes of a zonal call: W. In it: flux i crosses the face from column i to column i + 1, the
  ! last to column 0; positive eastward.
  pure function puldeho_zonal_fluxes_length(grid) result(length)
    type(puldeho_grid), intent(in) :: grid
    integer(c_int32_t) :: length

    length = grid%w
  end function puldeho_zonal_fluxes_length

  ! The length of fluxes of a count_zonal call: W. In it: flux i crosses the face from column i to column i +
  ! 1, the last to column 0; positive eastward.
  pure function puldeho_count_zonal_fluxes_length(grid) result(length)
    type(puldeho_grid), intent(in) :: grid
    integer(c_int32_t) :: length

    length = grid%w
  end function puldeho_count_zonal_fluxes_length

  ! The length of fluxes of a zonal_with_count call: W. In it: flux i crosses the face from column i to column
  ! i + 1, the last to column 0; positive eastward.
  pure function puldeho_zonal_with_count_fluxes_length(grid) result(length)
    type(puldeho_grid), intent(in) :: grid
    integer(c_int32_t) :: length

    length = grid%w
  end function puldeho_zonal_with_count_fluxes_length

  ! The length of fluxes of a long_zonal call: W. In it: flux i crosses the face from column i to column i +
  ! 1, the last to column 0; positive eastward.
  pure function puldeho_long_zonal_fluxes_length(grid) result(length)
    type(puldeho_grid), intent(in) :: grid
    integer(c_int32_t) :: length

    length = grid%w
  end function puldeho_long_zonal_fluxes_length

  ! The length of fluxes of a meridional call: (R + 1)*W. In it: flux g*W + i crosses between rows g - 1 and g
  ! in column i; row -1 is the south cap, row R the north cap; positive northward.
  pure function puldeho_meridional_fluxes_length(grid) result(length)
    type(puldeho_grid), intent(in) :: grid
    integer(c_int32_t) :: length

    length = (grid%r + 1)*grid%w
  end function puldeho_meridional_fluxes_length

  ! The length of table of a remap call: (K + 1)*2. In it: pair j is a at 2*j and b at 2*j + 1; edge j = a +
  ! floor(b*P/65536), P the air of the column.
  pure function puldeho_remap_table_length(grid) result(length)
    type(puldeho_grid), intent(in) :: grid
    integer(c_int32_t) :: length

    length = (grid%k + 1)*2
  end function puldeho_remap_table_length

  ! The most steps of a remap call: N*C*2*K, which is 1,623,040 on the largest grid, 72 x 44 x 32 x 8. The
  ! remap goes down each column once for each tracer; a step passes one edge or one old layer and adds at most
  ! one layer's amount or piece, and 2*K steps always reach the last edge. Proved for every accepted remap,
  ! whatever table, air and amounts. Not counted is what is done beside these steps, such as tests, edges and
  ! slopes; the count comes with the steps.
  pure function puldeho_most_remap_steps(grid) result(most)
    type(puldeho_grid), intent(in) :: grid
    integer(c_int32_t) :: most

    most = grid%n*puldeho_cells_in_layer(grid)*2*grid%k
  end function puldeho_most_remap_steps

  ! Why a call was refused: the condition of a refusal, in words.
  pure function puldeho_refusal_text(refusal) result(text)
    integer(c_int32_t), intent(in) :: refusal
    character(len=:), allocatable :: text

    select case (refusal)
    case (puldeho_accepted)
      text = "accepted"
    case (puldeho_refusal_grid_range)
      text = "W, R, K or N is outside its range"
    case (puldeho_refusal_lengths)
      text = "a lent length is not the grid's"
    case (puldeho_refusal_air_range)
      text = "a cell's air is 0 or above 65,535"
    case (puldeho_refusal_totals)
      text = "a tracer's total is above 268,435,455"
    case (puldeho_refusal_index)
      text = "the tracer, cell, layer or row is absent; in add_emitter, remove_emitter, tick and " // &
          "units_a_tick also: in the ledger some tracer has more than 16 emitters, an emitter in an " // &
          "absent cell, an id twice or a false sum"
    case (puldeho_refusal_emission)
      text = "the total would pass 268,435,455, or the tracer's emitted sum 4,294,967,295"
    case (puldeho_refusal_withdrawal)
      text = "the cell has less than the amount, or the tracer's withdrawn sum would pass 4,294,967,295"
    case (puldeho_refusal_fluxes)
      text = "a flux's size is above 1,048,560 (zonal) or 65,535 (meridional)"
    case (puldeho_refusal_zonal)
      text = "no count from 1 to 16 serves"
    case (puldeho_refusal_meridional)
      text = "the substep is not allowed"
    case (puldeho_refusal_table)
      text = "the first pair is not (0, 0), the last is not (0, 65,536), an a is above 2,097,120, or a b" // &
          " is above 65,536"
    case (puldeho_refusal_remap)
      text = "in some column the edges do not rise strictly, or a new layer exceeds 65,535"
    case (puldeho_refusal_long_flux)
      text = "a flux's size exceeds the row's air"
    case (puldeho_refusal_long_air)
      text = "air afterwards leaves 1 to 65,535"
    case (puldeho_refusal_emitter_added)
      text = "the tracer has 16 emitters or already has that id"
    case (puldeho_refusal_emitter_absent)
      text = "the tracer has no emitter of that id"
    case (puldeho_refusal_given_count)
      text = "the given count differs from the smallest that serves"
    case (puldeho_refusal_limiters)
      text = "a tracer's limiter is none of 1, 2 and 3, or its lo exceeds its hi"
    case (puldeho_refusal_books)
      text = "a tracer's loaded + emitted - withdrawn is not the sum of its cells"
    case default
      text = "no refusal of this version"
    end select
  end function puldeho_refusal_text

  ! What to do about a refusal, in words.
  pure function puldeho_refusal_remedy(refusal) result(text)
    integer(c_int32_t), intent(in) :: refusal
    character(len=:), allocatable :: text

    select case (refusal)
    case (puldeho_accepted)
      text = "nothing: the call was made"
    case (puldeho_refusal_grid_range)
      text = "give W from 4 to 72, R from 1 to 44, K from 1 to 32 and N from 1 to 8, in this order"
    case (puldeho_refusal_lengths)
      text = "take every length from the grid's length functions, and give lengths in numbers"
    case (puldeho_refusal_air_range)
      text = "choose the unit of air so that every cell has 1 to 65,535, with room for the changes " // &
          "within a step"
    case (puldeho_refusal_totals)
      text = "choose a larger unit for that gas, so that its total with all later emissions stays below " // &
          "the limit"
    case (puldeho_refusal_index)
      text = "count from 0, and take cell numbers from the grid's functions for cells and caps; if the " // &
          "ledger is at fault, load the world again, which leaves no emitter standing, and add the " // &
          "emitters anew"
    case (puldeho_refusal_emission)
      text = "correct an amount that is wrong, and remove an emitter whose units are wrong; else load " // &
          "the gas in a larger unit, with room for all emissions and ticks of the run, and add its " // &
          "emitters anew, with their units in the larger unit; if the emitted sum is full, read the " // &
          "book and load again, which begins the sums anew, then add the emitters and set the " // &
          "limiters anew"
    case (puldeho_refusal_withdrawal)
      text = "read the cell first, and withdraw at most what it has; if the withdrawn sum is full, read " // &
          "the book and load again, which begins the sums anew, then add the emitters and set the " // &
          "limiters anew"
    case (puldeho_refusal_fluxes)
      text = "give fluxes in units of air for this step, and divide the step if they are still too large"
    case (puldeho_refusal_zonal)
      text = "make the sweep as two or more, each with a part of the fluxes, or as a long zonal sweep " // &
          "(in the library only), which gives other amounts of tracer; if a cell would end with no " // &
          "air or too much, make the whole step (zonal, meridional, remap) in parts, or make the " // &
          "meridional sweep or a remap first"
    case (puldeho_refusal_meridional)
      text = "make the sweep as two or more, each with a part of the fluxes; if a cell would end with no" // &
          " air or too much, make the whole step (zonal, meridional, remap) in parts, or make the " // &
          "zonal sweeps or a remap first"
    case (puldeho_refusal_table)
      text = "give K + 1 pairs a, b from the top down, with b in parts of 65,536, the first 0, 0 and the" // &
          " last 0, 65,536"
    case (puldeho_refusal_remap)
      text = "use a = 0, and choose the b so that every layer gets 1 to 65,535 units in the column with " // &
          "the least air and in the one with the most"
    case (puldeho_refusal_long_flux)
      text = "take whole turns, each the sum of the row's air, off every flux (add them if the fluxes " // &
          "are negative): a whole turn brings every cell back, so nothing else changes; or divide the" // &
          " step"
    case (puldeho_refusal_long_air)
      text = "give fluxes that leave every cell 1 to 65,535; if the other sweeps of the step would bring" // &
          " the air back, make the whole step (zonal, meridional, remap) in parts, or make the " // &
          "meridional sweep or a remap first"
    case (puldeho_refusal_emitter_added)
      text = "remove a stack before you add it again with another cell or other units; add stacks of one" // &
          " cell as one emitter, with the sum of their units (to close one of them, remove the " // &
          "emitter and add it again with the rest); what does not fit 16 emitters give by emission"
    case (puldeho_refusal_emitter_absent)
      text = "remove each stack once, from the tracer that it was added to, and add the emitters anew " // &
          "after a load"
    case (puldeho_refusal_given_count)
      text = "see that layer, row and fluxes are those that were counted; then count again with " // &
          "count_zonal, look at the new count, and give that"
    case (puldeho_refusal_limiters)
      text = "load the world before other calls, and again if the ledger was written by anything but " // &
          "calls, then add the emitters and set the limiters anew; give set_limiter 1, 2 or 3, and lo" // &
          " and hi as mixing ratios times 262,144, lo at most hi (with 1 and 2 both 0)"
    case (puldeho_refusal_books)
      text = "load the world before other calls, and again after anything but calls wrote into tracers " // &
          "or ledger: what the cells have then is the loaded amount, and emitters and limiters must " // &
          "be set anew; to go back to a kept state, bring back tracers and ledger together"
    case default
      text = "compile the program anew, with the module of the library that it is linked with"
    end select
  end function puldeho_refusal_remedy

end module puldeho
