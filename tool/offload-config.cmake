# find_package(offload): the imported target offload::offload. The library and its header are found from where this file lies, so an installed tree
# may be moved.
if(NOT TARGET offload::offload)
  get_filename_component(offload_prefix "${CMAKE_CURRENT_LIST_DIR}" REALPATH)
  get_filename_component(offload_prefix "${offload_prefix}/../../.." ABSOLUTE)
  add_library(offload::offload STATIC IMPORTED)
  set_target_properties(offload::offload PROPERTIES
    IMPORTED_LOCATION "${offload_prefix}/lib/liboffload.a"
    INTERFACE_INCLUDE_DIRECTORIES "${offload_prefix}/include")
  unset(offload_prefix)
endif()
