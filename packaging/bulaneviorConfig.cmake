# The static library as the target bulanevior::bulanevior. It is found from where this file stands, so the folder may be moved.
get_filename_component(_bulanevior_prefix "${CMAKE_CURRENT_LIST_DIR}/../../.." ABSOLUTE)
if(NOT EXISTS "${_bulanevior_prefix}/lib/libbulanevior.a" OR NOT EXISTS "${_bulanevior_prefix}/include/bulanevior.h")
  set(bulanevior_FOUND FALSE)
  set(bulanevior_NOT_FOUND_MESSAGE "the library or its header is not in ${_bulanevior_prefix}")
elseif(NOT TARGET bulanevior::bulanevior)
  add_library(bulanevior::bulanevior STATIC IMPORTED)
  set_target_properties(bulanevior::bulanevior PROPERTIES
    IMPORTED_LOCATION "${_bulanevior_prefix}/lib/libbulanevior.a"
    INTERFACE_INCLUDE_DIRECTORIES "${_bulanevior_prefix}/include")
endif()
unset(_bulanevior_prefix)
