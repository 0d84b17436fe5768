{module, with_fun}.  %% version = 0

{exports, [{doubled,1},{map,2},{module_info,0},{module_info,1}]}.

{attributes, []}.

{labels, 12}.


{function, map, 2, 2}.
  {label,1}.
    {line,[{location,"with_fun.erl",5}]}.
    {func_info,{atom,with_fun},{atom,map},2}.
  {label,2}.
    {test,is_nonempty_list,{f,3},[{x,1}]}.
    {allocate,2,2}.
    {move,{x,0},{y,1}}.
    {get_list,{x,1},{x,0},{y,0}}.
    {move,{y,1},{x,1}}.
    {line,[{location,"with_fun.erl",6}]}.
    {call_fun,1}.
    {move,{y,0},{x,2}}.
    {swap,{y,1},{x,0}}.
    {move,{x,2},{x,1}}.
    {trim,1,1}.
    {line,[{location,"with_fun.erl",6}]}.
    {call,2,{f,2}}.
    {'%',{var_info,{x,0},[{type,{t_list,any,nil}}]}}.
    {test_heap,2,1}.
    {put_list,{y,0},{x,0},{x,0}}.
    {deallocate,1}.
    return.
  {label,3}.
    {test,is_nil,{f,1},[{x,1}]}.
    {move,nil,{x,0}}.
    return.


{function, doubled, 1, 5}.
  {label,4}.
    {line,[{location,"with_fun.erl",10}]}.
    {func_info,{atom,with_fun},{atom,doubled},1}.
  {label,5}.
    {allocate,1,1}.
    {move,{x,0},{y,0}}.
    {make_fun2,{f,11},0,0,0}.
    {'%',{var_info,{x,0},[{fun_type,number}]}}.
    {move,{y,0},{x,1}}.
    {call_last,2,{f,2},1}.


{function, module_info, 0, 7}.
  {label,6}.
    {line,[]}.
    {func_info,{atom,with_fun},{atom,module_info},0}.
  {label,7}.
    {move,{atom,with_fun},{x,0}}.
    {line,[]}.
    {call_ext_only,1,{extfunc,erlang,get_module_info,1}}.


{function, module_info, 1, 9}.
  {label,8}.
    {line,[]}.
    {func_info,{atom,with_fun},{atom,module_info},1}.
  {label,9}.
    {move,{x,0},{x,1}}.
    {move,{atom,with_fun},{x,0}}.
    {line,[]}.
    {call_ext_only,2,{extfunc,erlang,get_module_info,2}}.


{function, '-doubled/1-fun-0-', 1, 11}.
  {label,10}.
    {line,[{location,"with_fun.erl",11}]}.
    {func_info,{atom,with_fun},{atom,'-doubled/1-fun-0-'},1}.
  {label,11}.
    {line,[{location,"with_fun.erl",11}]}.
    {gc_bif,'*',{f,0},1,[{x,0},{integer,2}],{x,0}}.
    return.
