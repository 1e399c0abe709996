# Targets: luntrebis::luntrebis, the shared library, and luntrebis::static, the archive.
include(CMakeFindDependencyMacro)
find_dependency(Threads)

get_filename_component(_luntrebis_prefix "${CMAKE_CURRENT_LIST_DIR}/@UP@" ABSOLUTE)
set(_luntrebis_lib "${_luntrebis_prefix}/@LIBDIR@")

if(NOT TARGET luntrebis::luntrebis)
    add_library(luntrebis::luntrebis SHARED IMPORTED)
    set_target_properties(luntrebis::luntrebis PROPERTIES
        IMPORTED_LOCATION "${_luntrebis_lib}/@SONAME@"
        IMPORTED_SONAME "@SONAME@"
        INTERFACE_INCLUDE_DIRECTORIES "${_luntrebis_prefix}/include")
endif()

if(NOT TARGET luntrebis::static)
    add_library(luntrebis::static STATIC IMPORTED)
    set_target_properties(luntrebis::static PROPERTIES
        IMPORTED_LOCATION "${_luntrebis_lib}/libluntrebis.a"
        INTERFACE_LINK_LIBRARIES Threads::Threads
        INTERFACE_INCLUDE_DIRECTORIES "${_luntrebis_prefix}/include")
endif()

unset(_luntrebis_lib)
unset(_luntrebis_prefix)
