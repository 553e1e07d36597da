# find_package(redplay) gives the target redplay::redplay, the archive and its header.
# Links in the way are followed first: where /lib leads to /usr/lib, what is three folders up has to be /usr.
get_filename_component(redplay_prefix "${CMAKE_CURRENT_LIST_DIR}" REALPATH)
get_filename_component(redplay_prefix "${redplay_prefix}/@up@" ABSOLUTE)

if(NOT TARGET redplay::redplay)
    add_library(redplay::redplay STATIC IMPORTED)
    set_target_properties(redplay::redplay PROPERTIES
        IMPORTED_LOCATION "${redplay_prefix}/@lib@/libredplay.a"
        IMPORTED_LINK_INTERFACE_LANGUAGES C
        INTERFACE_INCLUDE_DIRECTORIES "${redplay_prefix}/include")
endif()
unset(redplay_prefix)
