# find_package(hot): the target hot::hot is the shared library, and hot::static the archive. The folder may be a link, as /lib is to /usr/lib.
get_filename_component(_hot_here "${CMAKE_CURRENT_LIST_FILE}" REALPATH)
get_filename_component(_hot_here "${_hot_here}" DIRECTORY)
get_filename_component(_hot_lib "${_hot_here}/../.." ABSOLUTE)
get_filename_component(_hot_include "${_hot_here}/@INCLUDEDIR@" ABSOLUTE)
if(NOT TARGET hot::hot)
  add_library(hot::hot SHARED IMPORTED)
  set_target_properties(hot::hot PROPERTIES
    IMPORTED_LOCATION "${_hot_lib}/libhot.so.@MAJOR@"
    IMPORTED_SONAME libhot.so.@MAJOR@
    INTERFACE_INCLUDE_DIRECTORIES "${_hot_include}")
  add_library(hot::static STATIC IMPORTED)
  set_target_properties(hot::static PROPERTIES
    IMPORTED_LOCATION "${_hot_lib}/libhot.a"
    INTERFACE_INCLUDE_DIRECTORIES "${_hot_include}")
endif()
unset(_hot_here)
unset(_hot_lib)
unset(_hot_include)
