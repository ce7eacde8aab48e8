! Puldeho, the transport core of the tracer console, for Fortran 2003 and later: version @VERSION@.
! @MADE@
!
! To compile and link: gfortran $(pkg-config --variable=fortran puldeho) program.f90 $(pkg-config --libs puldeho)
!
!     use puldeho
!     type(puldeho_world) :: world
!     integer :: refusal, substeps
!     call world%load(puldeho_grid(4, 1, 1, 1), [100, 100, 100, 100, 100, 100], [0, 0, 100, 200, 100, 0], refusal)
!     if (refusal == puldeho_accepted) call world%zonal(0, 0, [0, 50, 0, 0], refusal, substeps)
!     if (refusal /= puldeho_accepted) print *, "refused: ", puldeho_refusal_text(refusal)
!
! Layers, rows, columns, tracers and cells are counted from 0, and world%air(0) is the first cell's air.
! Each call sets refusal: 0 (puldeho_accepted) or the number of the first refusal that applies. A refused call
! changes nothing. Numbers are 32-bit without a sign in the library, so a negative one is far above every limit
! and is refused. (Only an emitter has two numbers without a limit: any id is taken, and one of negative units
! stands, with 2**31 or more, and refuses every tick with 6.) The bounds lo and hi of a limiter are 64-bit without a
! sign: a negative one is that number plus 2**64, above every ratio. After a refused call NAME, call
! world%why_NAME(.., text) with the same arguments says which cell or column was in the way, and what would help.
! After you wrote into world%air or world%tracers, load them again: other calls are refused with 22 if the cells of
! some tracer do not sum to what its book says.
! docs/GUIDE.md explains grid, units, fluxes and refusals.
module puldeho
  use, intrinsic :: iso_c_binding, only: c_char, c_int, c_int32_t, c_int64_t, c_loc, c_null_char, c_null_ptr, c_ptr, c_size_t
  implicit none
  private

  character(len=*), parameter, public :: puldeho_version = "@VERSION@"

@LIMITS@
  ! The limiters, as set_limiter takes them; section 12 of the guide says when to use which.
@LIMITERS@
  integer(c_int32_t), parameter, public :: puldeho_accepted = 0
@REFUSALS@
  ! What cell numbers are for a place that the grid has not; every call refuses it, with 5.
  integer(c_int32_t), parameter, public :: puldeho_no_cell = -1

  public :: puldeho_cells_in_layer, puldeho_cell_number, puldeho_south_cap, puldeho_north_cap
  public :: puldeho_refusal_text, puldeho_refusal_remedy, puldeho_why_load
@NAMES@
  ! The grid: W columns round the globe (4 to 72), R rows from south to north (1 to 44), K layers from the top
  ! down (1 to 32), N tracers (1 to 8).
  type, public :: puldeho_grid
    integer(c_int32_t) :: w = 0, r = 0, k = 0, n = 0
  end type puldeho_grid

  ! The world. It owns its lists; an accepted load makes it, and before that every call is refused, with 1. The
  ! ledger is written by calls alone; tracer t's block starts at t*puldeho_ledger_block. Later versions have longer
  ! blocks, and further components. So there is no structure constructor (the private component sees to that), and
  ! do not extend the type.
  type, public :: puldeho_world
    integer(c_int32_t), private :: made_by_load_only
    type(puldeho_grid) :: grid
@FIELDS@  contains
    procedure :: limiter => world_limiter
    procedure :: book => world_book
@METHODS@  end type puldeho_world

  ! struct puldeho_world of the C header.
  type, bind(c) :: c_world
    integer(c_int32_t) :: w, r, k, n
@CFIELDS@  end type c_world

  ! PULDEHO_WHY_SIZE of the C header.
  integer, parameter :: why_size = @WHYSIZE@

  ! Does nothing. A library of another version, whose functions may take other arguments, has no such name.
  interface
    subroutine @ABI@() bind(c)
    end subroutine @ABI@
  end interface

  ! The proved functions. Each returns refusal * 2**32 + count.
  interface
@RAWS@  end interface

  ! The functions that say why a call is refused, which are plain C and only read.
  interface
@WHYINTERFACES@  end interface

contains

  ! Takes copies of the lists as the world from now on, if the load is accepted; else the world stays as it was.
  ! The lists may be the world's own: after you wrote into them, load them again. No emitter stands then, every tracer
  ! has limiter 1, and its book begins anew.
  ! Refusals, in order: 1 2 3 4.
  subroutine world_load(world, grid, @LOADED@, refusal)
    class(puldeho_world), intent(inout) :: world
    type(puldeho_grid), intent(in) :: grid
@DECLARED@    integer(c_int32_t), intent(out) :: refusal
    type(puldeho_world) :: loaded

    call @ABI@()
    call copy_lists(loaded, grid, @LOADED@)
    refusal = refusal_of(puldeho_raw_load( &
        @GIVEN@))
    if (refusal /= puldeho_accepted) return
    world%made_by_load_only = 1
    world%grid = loaded%grid
@KEPT@  end subroutine world_load

  ! An empty world gets the grid and copies of the lists, untested.
  subroutine copy_lists(world, grid, @LOADED@)
    type(puldeho_world), intent(inout) :: world
    type(puldeho_grid), intent(in) :: grid
@DECLARED@
    world%grid = grid
@COPIED@  end subroutine copy_lists
@CALLS@@WHYS@
  ! The limiter that a tracer has now: its number, and its bounds as set_limiter takes them. All are 0 where the
  ! world was never loaded, or has no such tracer.
  subroutine world_limiter(world, tracer, number, lo, hi)
    class(puldeho_world), intent(in) :: world
    integer(c_int32_t), intent(in) :: tracer
    integer(c_int32_t), intent(out) :: number
    integer(c_int64_t), intent(out) :: lo, hi
    integer(c_int32_t) :: place

    number = 0
    lo = 0
    hi = 0
    if (.not. has_lists(world) .or. tracer < 0 .or. tracer >= world%grid%n) return
    place = tracer*puldeho_ledger_block + @LIMITERPLACE@
    number = world%ledger(place)
    lo = wide_of(world%ledger(place + 1:place + 2))
    hi = wide_of(world%ledger(place + 3:place + 4))
  end subroutine world_limiter

  ! The book of a tracer, in units: what the load found in all its cells, and what was emitted (ticks included) and
  ! withdrawn since then. All are -1 where the world was never loaded, or has no such tracer. Reading does not test
  ! it; if a call of total for any tracer is accepted, every tracer's total is loaded + emitted - withdrawn, and if
  ! not, it is refused with 22. The sums do not fit 32 bits with a sign, as which they stand in the ledger.
  subroutine world_book(world, tracer, loaded, emitted, withdrawn)
    class(puldeho_world), intent(in) :: world
    integer(c_int32_t), intent(in) :: tracer
    integer(c_int64_t), intent(out) :: loaded, emitted, withdrawn
    integer(c_int32_t) :: place

    loaded = -1
    emitted = -1
    withdrawn = -1
    if (.not. has_lists(world) .or. tracer < 0 .or. tracer >= world%grid%n) return
    place = tracer*puldeho_ledger_block + @BOOKPLACE@
    loaded = ibits(int(world%ledger(place), c_int64_t), 0, 32)
    emitted = ibits(int(world%ledger(place + 1), c_int64_t), 0, 32)
    withdrawn = ibits(int(world%ledger(place + 2), c_int64_t), 0, 32)
  end subroutine world_book

  ! A number of 64 bits from its low and its high half.
  pure function wide_of(halves) result(wide)
    integer(c_int32_t), intent(in) :: halves(2)
    integer(c_int64_t) :: wide

    wide = ior(ishft(int(halves(2), c_int64_t), 32), ibits(int(halves(1), c_int64_t), 0, 32))
  end function wide_of

  ! Why a load of these lists is refused, in words.
  subroutine puldeho_why_load(grid, @LOADED@, text)
    type(puldeho_grid), intent(in) :: grid
@DECLARED@    character(len=:), allocatable, intent(out) :: text
    type(puldeho_world), target :: world
    character(kind=c_char) :: words(why_size)
    integer(c_int) :: refusal

    call copy_lists(world, grid, @LOADED@)
    refusal = c_why_load(world_of(world), words, int(why_size, c_size_t))
    text = text_of(words)
  end subroutine puldeho_why_load

  ! The world as C has it.
  function world_of(world) result(lent)
    class(puldeho_world), intent(in), target :: world
    type(c_world) :: lent

    lent%w = world%grid%w
    lent%r = world%grid%r
    lent%k = world%grid%k
    lent%n = world%grid%n
    if (.not. has_lists(world)) return
@LENT@  end function world_of

  ! A text of C, which ends with a null character.
  pure function text_of(words) result(text)
    character(kind=c_char), intent(in) :: words(:)
    character(len=:), allocatable :: text
    integer :: i, length

    length = 0
    do while (words(length + 1) /= c_null_char)
      length = length + 1
    end do
    allocate (character(len=length) :: text)
    do i = 1, length
      text(i:i) = words(i)
    end do
  end function text_of

  ! Whether the world was ever loaded; before that it has neither grid nor lists.
  pure function has_lists(world) result(has)
    class(puldeho_world), intent(in) :: world
    logical :: has

    has = @ALLOCATED@
  end function has_lists

  pure function refusal_of(returned) result(refusal)
    integer(c_int64_t), intent(in) :: returned
    integer(c_int32_t) :: refusal

    refusal = int(ishft(returned, -32), c_int32_t)
  end function refusal_of

  pure function count_of(returned) result(count)
    integer(c_int64_t), intent(in) :: returned
    integer(c_int32_t) :: count

    count = int(ibits(returned, 0, 32), c_int32_t)
  end function count_of

  ! C, the cells of a layer: its R*W cells and the two caps.
  pure function puldeho_cells_in_layer(grid) result(cells)
    type(puldeho_grid), intent(in) :: grid
    integer(c_int32_t) :: cells

    cells = 2 + grid%r*grid%w
  end function puldeho_cells_in_layer

  ! The number of a cell over all layers: layer*C + 1 + row*W + column.
  pure function puldeho_cell_number(grid, layer, row, column) result(cell)
    type(puldeho_grid), intent(in) :: grid
    integer(c_int32_t), intent(in) :: layer, row, column
    integer(c_int32_t) :: cell

    cell = puldeho_no_cell
    if (layer < 0 .or. layer >= grid%k .or. row < 0 .or. row >= grid%r .or. column < 0 .or. column >= grid%w) return
    cell = layer*puldeho_cells_in_layer(grid) + 1 + row*grid%w + column
  end function puldeho_cell_number

  ! The number of a layer's south cap: layer*C.
  pure function puldeho_south_cap(grid, layer) result(cell)
    type(puldeho_grid), intent(in) :: grid
    integer(c_int32_t), intent(in) :: layer
    integer(c_int32_t) :: cell

    cell = puldeho_no_cell
    if (layer >= 0 .and. layer < grid%k) cell = layer*puldeho_cells_in_layer(grid)
  end function puldeho_south_cap

  ! The number of a layer's north cap: layer*C + C - 1.
  pure function puldeho_north_cap(grid, layer) result(cell)
    type(puldeho_grid), intent(in) :: grid
    integer(c_int32_t), intent(in) :: layer
    integer(c_int32_t) :: cell

    cell = puldeho_no_cell
    if (layer >= 0 .and. layer < grid%k) cell = (layer + 1)*puldeho_cells_in_layer(grid) - 1
  end function puldeho_north_cap
@LENGTHS@@BOUNDS@
  ! Why a call was refused: the condition of a refusal, in words.
  pure function puldeho_refusal_text(refusal) result(text)
    integer(c_int32_t), intent(in) :: refusal
    character(len=:), allocatable :: text

    select case (refusal)
    case (puldeho_accepted)
      text = "accepted"
@CONDITIONS@    case default
      text = "no refusal of this version"
    end select
  end function puldeho_refusal_text

  ! What to do about a refusal, in words.
  pure function puldeho_refusal_remedy(refusal) result(text)
    integer(c_int32_t), intent(in) :: refusal
    character(len=:), allocatable :: text

    select case (refusal)
    case (puldeho_accepted)
      text = "nothing: the call was made"
@REMEDIES@    case default
      text = "compile the program anew, with the module of the library that it is linked with"
    end select
  end function puldeho_refusal_remedy

end module puldeho
