# The header and the archive as the target board::board; 'tools/archive' makes the archive.
get_filename_component(_board_root "${CMAKE_CURRENT_LIST_DIR}/.." ABSOLUTE)
set(_board_archive "${_board_root}/target/staticlib/libboard.a")

if(NOT EXISTS "${_board_archive}")
  set(board_FOUND FALSE)
  set(board_NOT_FOUND_MESSAGE "${_board_archive} is missing: run 'tools/archive' in ${_board_root}")
elseif(NOT CMAKE_SYSTEM_PROCESSOR MATCHES "^(x86_64|AMD64|amd64)$")
  set(board_FOUND FALSE)
  set(board_NOT_FOUND_MESSAGE "the archive is x86-64 code, not ${CMAKE_SYSTEM_PROCESSOR}")
elseif(NOT TARGET board::board)
  add_library(board::board STATIC IMPORTED)
  set_target_properties(board::board PROPERTIES
    IMPORTED_LOCATION "${_board_archive}"
    INTERFACE_INCLUDE_DIRECTORIES "${_board_root}/include")
endif()
