# For find_package(hemotusap): hemotusap::hemotusap is the archive with both headers, wherever the installed files have been moved to.
get_filename_component(hemotusap_prefix "${CMAKE_CURRENT_LIST_DIR}/../../.." ABSOLUTE)
if(NOT TARGET hemotusap::hemotusap)
  add_library(hemotusap::hemotusap STATIC IMPORTED)
  set_target_properties(hemotusap::hemotusap PROPERTIES
    IMPORTED_LOCATION "${hemotusap_prefix}/lib/libhemotusap.a"
    INTERFACE_INCLUDE_DIRECTORIES "${hemotusap_prefix}/include")
endif()
unset(hemotusap_prefix)
