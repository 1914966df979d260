# Finds gix_revision for CMake: find_package(gix_revision 0.9), with these targets to link:
#
#   gix_revision::gix_revision   the shared library
#   gix_revision::static         the archive, which needs nothing when the program runs
#   gix_revision::repository     gix_repository.c, which is compiled with the target
#
# The files are found from the place of this one, so that the prefix may be moved.
get_filename_component(_gix_revision_lib "${CMAKE_CURRENT_LIST_DIR}/../.." ABSOLUTE)
set(_gix_revision_include "${_gix_revision_lib}/../include")
if(NOT EXISTS "${_gix_revision_include}/gix_revision.h")
    get_filename_component(_gix_revision_include "${_gix_revision_lib}/../../include" ABSOLUTE)
endif()

if(NOT TARGET gix_revision::gix_revision)
    add_library(gix_revision::gix_revision SHARED IMPORTED)
    set_target_properties(gix_revision::gix_revision PROPERTIES
        IMPORTED_LOCATION "${_gix_revision_lib}/@SONAME@"
        IMPORTED_SONAME "@SONAME@"
        INTERFACE_INCLUDE_DIRECTORIES "${_gix_revision_include}")

    add_library(gix_revision::static STATIC IMPORTED)
    set_target_properties(gix_revision::static PROPERTIES
        IMPORTED_LOCATION "${_gix_revision_lib}/libgix_revision.a"
        INTERFACE_INCLUDE_DIRECTORIES "${_gix_revision_include}")

    add_library(gix_revision::repository INTERFACE IMPORTED)
    set_target_properties(gix_revision::repository PROPERTIES
        INTERFACE_SOURCES "${_gix_revision_include}/../share/gix_revision/gix_repository.c"
        INTERFACE_INCLUDE_DIRECTORIES "${_gix_revision_include}")
endif()

unset(_gix_revision_lib)
unset(_gix_revision_include)
