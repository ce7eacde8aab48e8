! The program of kept.c in Fortran, kept unchanged from the first version on.
program kept
  use puldeho
  implicit none
  type(puldeho_grid) :: grid
  type(puldeho_world) :: world
  integer, allocatable :: air(:), tracers(:)
  integer :: cells, refusal, i

  grid = puldeho_grid(w=4, r=2, k=2, n=2)
  cells = puldeho_air_length(grid)
  allocate (air(cells), tracers(puldeho_tracers_length(grid)))
  air(:) = [(100 + mod(i, 7), i = 0, cells - 1)]
  tracers(:) = [3*air, (mod(i*37, 500), i = 0, cells - 1)]
  print "(a, i0, a, i0)", "cells: ", cells, ", amounts: ", puldeho_tracers_length(grid)
  call world%load(grid, air, tracers, refusal)
  call accepted("load")
  call make_calls()
  call make_refused_calls()
  print "(a, *(1x, i0))", "air:", world%air
  print "(a, *(1x, i0))", "gas 0, three units to each of air:", world%tracers(0:cells - 1)

contains

  ! Ends the program at a refusal that was not expected.
  subroutine accepted(name)
    character(len=*), intent(in) :: name

    if (refusal /= puldeho_accepted) then
      print "(5a)", name, ": ", puldeho_refusal_text(refusal), "; ", puldeho_refusal_remedy(refusal)
      error stop
    end if
    print "(2a)", name, ": accepted"
  end subroutine accepted

  ! Every call once, accepted.
  subroutine make_calls()
    integer :: count

    call world%emission(1, puldeho_cell_number(grid, 1, 1, 3), 1000, refusal)
    call accepted("emission")
    call world%withdrawal(1, puldeho_south_cap(grid, 1), 20, refusal)
    call accepted("withdrawal")
    call world%zonal(0, 1, [150, 160, 140, 155], refusal, count)
    call accepted("zonal")
    print "(a, i0)", "substeps: ", count
    call world%meridional(1, [5, -4, 3, 2, 10, 9, -8, 7, -6, 5, 4, -3], refusal, count)
    call accepted("meridional")
    print "(a, i0)", "substeps: ", count
    call world%remap([0, 0, 0, 32768, 0, 65536], refusal, count)
    call accepted("remap")
    print "(a, i0)", "pairs: ", count
    call world%total(1, refusal, count)
    call accepted("total")
    print "(a, i0)", "units: ", count
    call world%cell(0, puldeho_north_cap(grid, 1), refusal, count)
    call accepted("cell")
    print "(a, i0)", "units: ", count
  end subroutine make_calls

  ! Calls that are refused.
  subroutine make_refused_calls()
    integer :: substeps

    call world%emission(0, puldeho_cell_number(grid, 2, 0, 0), 1, refusal)
    print "(a, i0)", "an absent cell: ", refusal
    call world%withdrawal(0, 0, 4000000, refusal)
    print "(a, i0)", "more than a cell has: ", refusal
    call world%zonal(0, 0, [0, 1000, 0], refusal)
    print "(a, i0)", "three fluxes: ", refusal
    call world%zonal(0, 0, [0, 1048561, 0, 0], refusal)
    print "(a, i0)", "a flux too large: ", refusal
    call world%zonal(0, 0, [0, 1000, 0, 0], refusal, substeps)
    print "(a, i0, a, i0)", "a cell would empty: ", refusal, ", substeps ", substeps
  end subroutine make_refused_calls

end program kept
