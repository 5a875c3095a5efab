# hunkConfig.cmake: what find_package(hunk) reads. It makes the imported targets hunk::static, the static library, and hunk::hunk,
# the shared library, or the static one where there is no shared one. It finds them and hunk.h by its own place, so all of them
# may be moved together: it stands in lib/cmake/hunk, or for Debian in lib/TRIPLET/cmake/hunk, two folders below the libraries.
if(TARGET hunk::hunk)
  return()
endif()
get_filename_component(_hunk_lib "${CMAKE_CURRENT_LIST_DIR}/../.." REALPATH)
get_filename_component(_hunk_include "${_hunk_lib}/../include" ABSOLUTE)
if(NOT EXISTS "${_hunk_include}/hunk.h")
  get_filename_component(_hunk_include "${_hunk_lib}/../../include" ABSOLUTE)
endif()

# On Windows the DLL stands in bin, and MSVC's linker, by which it was not tried, takes hunk.lib as the static library.
set(_hunk_static "${_hunk_lib}/libhunk.a")
set(_hunk_shared "${_hunk_lib}/libhunk.so")
set(_hunk_implib "")
if(WIN32)
  if(MSVC)
    set(_hunk_static "${_hunk_lib}/hunk.lib")
  endif()
  get_filename_component(_hunk_shared "${_hunk_lib}/../bin/hunk.dll" ABSOLUTE)
  set(_hunk_implib "${_hunk_lib}/libhunk.dll.a")
endif()
if(EXISTS "${_hunk_static}")
  add_library(hunk::static STATIC IMPORTED)
  set_target_properties(hunk::static PROPERTIES
    IMPORTED_LOCATION "${_hunk_static}"
    INTERFACE_INCLUDE_DIRECTORIES "${_hunk_include}")
endif()
if(EXISTS "${_hunk_shared}")
  add_library(hunk::hunk SHARED IMPORTED)
  set_target_properties(hunk::hunk PROPERTIES
    IMPORTED_LOCATION "${_hunk_shared}"
    IMPORTED_IMPLIB "${_hunk_implib}"
    INTERFACE_INCLUDE_DIRECTORIES "${_hunk_include}")
elseif(TARGET hunk::static)
  add_library(hunk::hunk INTERFACE IMPORTED)
  set_target_properties(hunk::hunk PROPERTIES INTERFACE_LINK_LIBRARIES hunk::static)
endif()

if(NOT TARGET hunk::hunk OR NOT EXISTS "${_hunk_include}/hunk.h")
  set(hunk_FOUND FALSE)
  set(hunk_NOT_FOUND_MESSAGE "hunk.h or the library is not beside ${CMAKE_CURRENT_LIST_DIR}")
endif()
foreach(_hunk_name IN ITEMS lib include static shared implib)
  unset(_hunk_${_hunk_name})
endforeach()
