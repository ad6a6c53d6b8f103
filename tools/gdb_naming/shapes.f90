module shapes
  implicit none
  type point
    real :: x, y
  contains
    procedure :: length => point_length
  end type
  type, extends(point) :: circle
    real :: radius
  end type
  integer, parameter :: sides = 4
  integer :: made = 0
  enum, bind(c)
    enumerator :: red = 1, green
  end enum
  interface area
    module procedure area_of_circle, area_of_point
  end interface
  private :: helper
contains
  real function area_of_circle(c)
    class(circle), intent(in) :: c
    area_of_circle = 3 * c%radius ** 2 + helper(1) + inner(1.0)
  contains
    real function inner(r)
      real :: r
      real, save :: kept = 1
      inner = r * 2 + kept
    end function
  end function
  real function area_of_point(p)
    type(point), intent(in) :: p
    area_of_point = 0 * p%x
  end function
  real function point_length(this)
    class(point), intent(in) :: this
    point_length = sqrt(this%x ** 2 + this%y ** 2)
  end function
  integer function helper(n)
    integer :: n
    helper = n + made
  end function
end module
module more
  use shapes, only: circle, renamed => area
  implicit none
  integer, dimension(3) :: numbers
contains
  subroutine fill(a)
    integer, intent(inout) :: a(:)
    integer :: i
    do i = 1, size(a)
      block
        integer :: in_block
        in_block = i
        a(i) = in_block
      end block
    end do
  end subroutine
end module
subroutine two_ways(n)
  integer :: n
  integer :: common_one
  real :: common_two
  common /shared/ common_one, common_two
  common_one = n
  return
  entry second_way(n)
  common_two = n
end subroutine
program demo
  use more
  implicit none
  type(circle) :: c
  character(len=5) :: word
  word = 'hello'
  c%radius = 2
  call fill(numbers)
  call two_ways(3)
  call local(1)
  print *, renamed(c), numbers, word
contains
  subroutine local(n)
    integer :: n
    integer, save :: times = 0
    times = times + n
  end subroutine
end program
