# The targets someip::someip (the shared library) and someip::static (the archive, with the functions of memory over malloc).
get_filename_component(_someip_prefix "${CMAKE_CURRENT_LIST_DIR}/../../.." ABSOLUTE)
if(NOT TARGET someip::someip)
  add_library(someip::someip SHARED IMPORTED)
  set_target_properties(someip::someip PROPERTIES
    IMPORTED_LOCATION "${_someip_prefix}/lib/libsomeip.so.@VERSION@"
    IMPORTED_SONAME libsomeip.so.1
    INTERFACE_INCLUDE_DIRECTORIES "${_someip_prefix}/include")
  add_library(someip::static INTERFACE IMPORTED)
  set_target_properties(someip::static PROPERTIES
    INTERFACE_SOURCES "${_someip_prefix}/include/someip_heap.c"
    INTERFACE_LINK_LIBRARIES "${_someip_prefix}/lib/libsomeip_c.a"
    INTERFACE_INCLUDE_DIRECTORIES "${_someip_prefix}/include")
endif()
unset(_someip_prefix)
