# hunkConfigVersion.cmake: whether this version will do for find_package(hunk VERSION). It has to be of the same major version,
# and not older; while the major version is 0, of the same minor version, too. Where a range is asked for, it has to be in that.
set(PACKAGE_VERSION "@VERSION@")
set(PACKAGE_VERSION_COMPATIBLE FALSE)
set(PACKAGE_VERSION_EXACT FALSE)

# The part of a version that has to be the same: 0.1 of 0.1.0, and 1 of 1.4.2.
string(REGEX MATCH "^(0\\.)?[0-9]+" _hunk_line "${PACKAGE_VERSION}")
string(REGEX MATCH "^(0\\.)?[0-9]+" _hunk_asked "${PACKAGE_FIND_VERSION}")
if(PACKAGE_FIND_VERSION_RANGE)
  if(NOT PACKAGE_VERSION VERSION_LESS PACKAGE_FIND_VERSION_MIN AND (PACKAGE_VERSION VERSION_LESS PACKAGE_FIND_VERSION_MAX
      OR (PACKAGE_VERSION VERSION_EQUAL PACKAGE_FIND_VERSION_MAX AND PACKAGE_FIND_VERSION_RANGE_MAX STREQUAL "INCLUDE")))
    set(PACKAGE_VERSION_COMPATIBLE TRUE)
  endif()
elseif(_hunk_line STREQUAL _hunk_asked AND NOT PACKAGE_VERSION VERSION_LESS PACKAGE_FIND_VERSION)
  set(PACKAGE_VERSION_COMPATIBLE TRUE)
  if(PACKAGE_VERSION VERSION_EQUAL PACKAGE_FIND_VERSION)
    set(PACKAGE_VERSION_EXACT TRUE)
  endif()
endif()
unset(_hunk_line)
unset(_hunk_asked)
