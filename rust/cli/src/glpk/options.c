/* GLPK's option records, filled in C so that Rust need not know their layout. Messages go to the terminal hook. */
#include <glpk.h>

int astrolabe_cli_simplex(glp_prob *problem)
{
    glp_smcp options;
    glp_init_smcp(&options);
    options.msg_lev = GLP_MSG_ERR;
    return glp_simplex(problem, &options);
}

int astrolabe_cli_intopt(glp_prob *problem, void (*at_node)(glp_tree *, void *), void *info)
{
    glp_iocp options;
    glp_init_iocp(&options);
    options.msg_lev = GLP_MSG_ERR;
    options.pp_tech = GLP_PP_NONE; /* GLPK's own preprocessing of nodes would hide what the library does */
    options.cb_func = at_node;
    options.cb_info = info;
    return glp_intopt(problem, &options);
}
