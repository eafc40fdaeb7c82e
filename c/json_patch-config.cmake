# find_package(json_patch): json_patch::json_patch is the shared library, and
# json_patch::json_patch_static the static one, of the folder that this file lies in.
get_filename_component(_json_patch_prefix "${CMAKE_CURRENT_LIST_DIR}/../../.." ABSOLUTE)

if(NOT TARGET json_patch::json_patch)
  add_library(json_patch::json_patch SHARED IMPORTED)
  set_target_properties(json_patch::json_patch PROPERTIES
    IMPORTED_LOCATION "${_json_patch_prefix}/lib/libjson_patch.so.@version@"
    IMPORTED_SONAME "libjson_patch.so.@major@"
    INTERFACE_INCLUDE_DIRECTORIES "${_json_patch_prefix}/include")

  add_library(json_patch::json_patch_static STATIC IMPORTED)
  set_target_properties(json_patch::json_patch_static PROPERTIES
    IMPORTED_LOCATION "${_json_patch_prefix}/lib/libjson_patch.a"
    INTERFACE_INCLUDE_DIRECTORIES "${_json_patch_prefix}/include")
endif()

unset(_json_patch_prefix)
