# The version is the header's. Another major version, or a later one than this, does not fit.
file(STRINGS "${CMAKE_CURRENT_LIST_DIR}/../include/board.h" _board_line REGEX "^#define BOARD_VERSION \"")
string(REGEX REPLACE ".*\"(.*)\".*" "\\1" PACKAGE_VERSION "${_board_line}")
string(REGEX REPLACE "\\..*" "" _board_major "${PACKAGE_VERSION}")

if(PACKAGE_FIND_VERSION_MAJOR EQUAL _board_major AND PACKAGE_FIND_VERSION VERSION_LESS_EQUAL PACKAGE_VERSION)
  set(PACKAGE_VERSION_COMPATIBLE TRUE)
endif()
if(PACKAGE_FIND_VERSION VERSION_EQUAL PACKAGE_VERSION)
  set(PACKAGE_VERSION_EXACT TRUE)
endif()
