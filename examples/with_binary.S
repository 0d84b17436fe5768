{module, with_binary}.  %% version = 0

{exports, [{module_info,0},{module_info,1},{zeros,1}]}.

{attributes, []}.

{labels, 12}.


{function, zeros, 1, 2}.
  {label,1}.
    {line,[{location,"with_binary.erl",5}]}.
    {func_info,{atom,with_binary},{atom,zeros},1}.
  {label,2}.
    {'%',{var_info,{x,0},[accepts_match_context]}}.
    {move,{integer,0},{x,1}}.
    {call_only,2,{f,4}}.


{function, zeros, 2, 4}.
  {label,3}.
    {line,[{location,"with_binary.erl",8}]}.
    {func_info,{atom,with_binary},{atom,zeros},2}.
  {label,4}.
    {'%',{var_info,{x,0},[accepts_match_context]}}.
    {'%',{var_info,{x,1},[{type,{t_integer,any}}]}}.
    {test,bs_start_match3,{f,3},2,[{x,0}],{x,2}}.
    {bs_get_position,{x,2},{x,0},3}.
    {test,bs_get_integer2,
          {f,6},
          3,
          [{x,2},
           {integer,8},
           1,
           {field_flags,[{anno,[8,{file,"with_binary.erl"}]},unsigned,big]}],
          {x,3}}.
    {test,is_eq_exact,{f,5},[{x,3},{integer,0}]}.
    {test,bs_test_unit,{f,5},[{x,2},8]}.
    {line,[{location,"with_binary.erl",9}]}.
    {gc_bif,'+',{f,0},3,[{x,1},{integer,1}],{x,1}}.
    {move,{x,2},{x,0}}.
    {call_only,2,{f,4}}.
  {label,5}.
    {test,bs_test_unit,{f,7},[{x,2},8]}.
    {move,{x,2},{x,0}}.
    {call_only,2,{f,4}}.
  {label,6}.
    {test,bs_test_tail2,{f,7},[{x,2},0]}.
    {move,{x,1},{x,0}}.
    return.
  {label,7}.
    {bs_set_position,{x,2},{x,0}}.
    {bs_get_tail,{x,2},{x,0},3}.
    {jump,{f,3}}.


{function, module_info, 0, 9}.
  {label,8}.
    {line,[]}.
    {func_info,{atom,with_binary},{atom,module_info},0}.
  {label,9}.
    {move,{atom,with_binary},{x,0}}.
    {line,[]}.
    {call_ext_only,1,{extfunc,erlang,get_module_info,1}}.


{function, module_info, 1, 11}.
  {label,10}.
    {line,[]}.
    {func_info,{atom,with_binary},{atom,module_info},1}.
  {label,11}.
    {move,{x,0},{x,1}}.
    {move,{atom,with_binary},{x,0}}.
    {line,[]}.
    {call_ext_only,2,{extfunc,erlang,get_module_info,2}}.
