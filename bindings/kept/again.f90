! The program of again.c in Fortran, kept unchanged from the first version on.
program again
  use puldeho
  implicit none
  type(puldeho_world) :: world, saved
  character(len=:), allocatable :: why
  integer :: refusal, units, i

  call world%load(puldeho_grid(4, 1, 1, 1), spread(100, 1, 6), [(10*i, i = 0, 5)], refusal)
  call accepted()
  saved = world
  call step("a step")
  call step("a second")
  world = saved
  call step("from the kept state")
  world%tracers(1) = world%tracers(1) + 300
  call world%load(world%grid, world%air, world%tracers, refusal)
  call accepted()
  call step("loaded again")
  call saved%cell(0, 5, refusal, units)
  call accepted()
  print "(a, i0)", "kept: ", units
  call world%withdrawal(0, 5, 1000000, refusal)
  if (refusal /= puldeho_refusal_withdrawal) error stop
  call world%why_withdrawal(0, 5, 1000000, why)
  if (len(why) == 0) error stop

contains

  subroutine accepted()
    if (refusal /= puldeho_accepted) error stop puldeho_refusal_text(refusal)
  end subroutine accepted

  ! Emits, sweeps and withdraws.
  subroutine step(when)
    character(len=*), intent(in) :: when
    integer :: total

    call world%emission(0, 5, 1000, refusal)
    call accepted()
    call world%zonal(0, 0, [0, 20, 0, -10], refusal)
    call accepted()
    call world%withdrawal(0, 5, 7, refusal)
    call accepted()
    call world%total(0, refusal, total)
    call accepted()
    print "(2a, i0, a, *(1x, i0))", when, ": total ", total, ", air", world%air
  end subroutine step

end program again
