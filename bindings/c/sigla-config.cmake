# find_package(sigla) gives the targets sigla::sigla, the shared library, and sigla::sigla_static. ./install writes the two folders.
get_filename_component(_sigla_libdir "${CMAKE_CURRENT_LIST_DIR}/../.." ABSOLUTE)
get_filename_component(_sigla_include "${_sigla_libdir}/@INCLUDE@" ABSOLUTE)
if(NOT TARGET sigla::sigla)
  add_library(sigla::sigla SHARED IMPORTED)
  set_target_properties(sigla::sigla PROPERTIES
    IMPORTED_LOCATION "${_sigla_libdir}/libsigla.so.0"
    IMPORTED_SONAME "libsigla.so.0"
    INTERFACE_INCLUDE_DIRECTORIES "${_sigla_include}")
  add_library(sigla::sigla_static STATIC IMPORTED)
  set_target_properties(sigla::sigla_static PROPERTIES
    IMPORTED_LOCATION "${_sigla_libdir}/libsigla.a"
    INTERFACE_INCLUDE_DIRECTORIES "${_sigla_include}")
endif()
unset(_sigla_libdir)
unset(_sigla_include)
